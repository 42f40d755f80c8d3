/*
 * How far a CBOT grain or oilseed futures contract may move today.
 *
 * The bare check judges one order on plain numbers. The book keeps limits, levels, windows and sheets from day to day and
 * judges an order by them. Either check can go through a tally that counts the answers.
 *
 * tools/install puts this header, an archive and a shared object under a prefix. They need the C library and nothing else:
 *
 *     gcc main.c $(pkg-config --cflags --libs botskhela)
 *
 * Every call returns, whatever its arguments, and does nothing that C leaves undefined, if the pointers that it is given are
 * what is said below. No call keeps a pointer, allocates, or touches anything but what it is lent.
 */
#ifndef BOTSKHELA_H
#define BOTSKHELA_H

#include <stddef.h>
#include <stdint.h>

/* Products. Prices, settlements and amounts count the unit given here. */
#define BOTSKHELA_CORN          0u /* 1/8 cent a bushel      */
#define BOTSKHELA_SOYBEANS      1u /* 1/8 cent a bushel      */
#define BOTSKHELA_SOYBEAN_OIL   2u /* 1/100 cent a pound     */
#define BOTSKHELA_SOYBEAN_MEAL  3u /* 10 cents a ton         */
#define BOTSKHELA_CHICAGO_WHEAT 4u /* 1/8 cent a bushel      */
#define BOTSKHELA_KC_WHEAT      5u /* 1/8 cent a bushel      */
#define BOTSKHELA_OATS          6u /* 1/8 cent a bushel      */
#define BOTSKHELA_ROUGH_RICE    7u /* 1/2 cent a hundredweight */

/* How many products there are, and how many groups of products that share a level. */
#define BOTSKHELA_PRODUCTS 8u
#define BOTSKHELA_GROUPS   5u

/* Editions of the rule, by year. They differ in what triggers and holds a group, and only 2023 raises limits. */
#define BOTSKHELA_EDITION_2014 2014u
#define BOTSKHELA_EDITION_2023 2023u

/* Sizes. Minis are offered for Corn, Soybeans and Chicago Wheat. */
#define BOTSKHELA_STANDARD 0u
#define BOTSKHELA_MINI     1u

/* Answers of a check. */
#define BOTSKHELA_FREE   100u /* the contract is spot and has no limit           */
#define BOTSKHELA_WITHIN 101u /* at most the limit away from the settlement      */
#define BOTSKHELA_BELOW  102u /* more than the limit below the settlement        */
#define BOTSKHELA_ABOVE  103u /* more than the limit above the settlement        */

/* Refusals. Where several apply, each call says which comes first. */
#define BOTSKHELA_UNSOUND           1u  /* the book, or the tally, is none or damaged               */
#define BOTSKHELA_WRONG_PHASE       2u  /* open, convert: a day is open; sheet, end, check: none is */
#define BOTSKHELA_NO_SUCH_DATE      3u  /* no date from 2000 to 2098, or left beyond its month      */
#define BOTSKHELA_NOT_LATER         4u  /* the date is not later than the last opened one           */
#define BOTSKHELA_NO_SUCH_PRODUCT   5u  /* no such product, or no such size of it                   */
#define BOTSKHELA_MISSHAPEN         6u  /* a sheet of 0 or over 16 contracts, or of unequal arrays  */
#define BOTSKHELA_BAD_MONTH         7u  /* a sheet's months: not traded, not ascending, or past     */
#define BOTSKHELA_BAD_PRICE         8u  /* a price or settlement out of range or off its tick       */
#define BOTSKHELA_CONTRACT_ABSENT   9u  /* a contract of the last ended sheet, not spot, is missing */
#define BOTSKHELA_BEYOND_LIMIT      10u /* a settlement, not spot, that moved by more than the limit */
#define BOTSKHELA_ALREADY_IN        11u /* the product's sheet is in                                */
#define BOTSKHELA_SHEET_OUTSTANDING 12u /* an end before all eight sheets are in                    */
#define BOTSKHELA_UNFIT_AMOUNT      13u /* an amount that cannot be a limit                         */
#define BOTSKHELA_NOT_LISTED        14u /* the month is not on the last ended sheet, or is past     */
#define BOTSKHELA_TALLY_FULL        15u /* the tally has counted 4,294,967,295 checks               */
#define BOTSKHELA_LEFT_NOT_SMALLER  16u /* left not smaller than at the last opening of that month  */
#define BOTSKHELA_UNKNOWN_EDITION   17u /* a founding under neither edition                         */
#define BOTSKHELA_GROUP_EXPANDED    18u /* a conversion of a 2014 book with an expanded group       */

/* What an ended day did to a group. */
#define BOTSKHELA_QUIET     0u /* the initial level stays                                          */
#define BOTSKHELA_TRIGGERED 1u /* from the initial level to the expanded one                       */
#define BOTSKHELA_HELD      2u /* the expanded level stays                                         */
#define BOTSKHELA_REVERTED  3u /* from the expanded level back to the initial one                  */
#define BOTSKHELA_RAISED    4u /* back to the initial level, with the expanded limits as its limits */

/* The format of the images that this library makes and takes. */
#define BOTSKHELA_FORMAT 3u

/* A gateway's record. It begins with six zeros; only the tallied checks write it. */
typedef struct botskhela_tally {
    uint32_t asked; /* the number of checks: the sum of the other five */
    uint32_t free;
    uint32_t within;
    uint32_t below;
    uint32_t above;
    uint32_t refused;
} botskhela_tally;

/* What a check answers, and the span of prices that it goes by. */
typedef struct botskhela_span {
    uint32_t answer;  /* an answer of a check, or a refusal */
    uint32_t lowest;  /* the lowest price allowed, 0 where the check is free or refused */
    uint32_t highest; /* the highest price allowed, 0 where the check is free or refused */
} botskhela_span;

/* A product's limits. */
typedef struct botskhela_limit {
    uint32_t initial;
    uint32_t expanded;
} botskhela_limit;

/*
 * A group's level, and its mark: held on the ended day before, with a move of exactly the expanded limit, and no new limits
 * since.
 */
typedef struct botskhela_standing {
    uint32_t expanded; /* 0 or 1 */
    uint32_t marked;   /* 0 or 1 */
} botskhela_standing;

/* A contract is named by its month, year * 12 + month - 1. */
typedef struct botskhela_contract {
    uint32_t month;
    uint32_t settlement;
} botskhela_contract;

/* A product's sheet. A count of 0 means that there is none; places from the count on mean nothing. */
typedef struct botskhela_product_sheet {
    uint32_t count;
    botskhela_contract contracts[16];
} botskhela_product_sheet;

/* The settlements that each product's season limits will be made of, oldest first. Places from a count on mean nothing. */
typedef struct botskhela_windows {
    uint32_t counts[BOTSKHELA_PRODUCTS];
    uint32_t settlements[BOTSKHELA_PRODUCTS][45];
} botskhela_windows;

/* What an ended day did to a group, and the leading contract, by its month and product: both 0 for quiet and reverted. */
typedef struct botskhela_event {
    uint32_t kind; /* BOTSKHELA_QUIET .. BOTSKHELA_RAISED */
    uint32_t month;
    uint32_t product;
} botskhela_event;

/*
 * The image of a book: a struct of 32-bit numbers without padding, which a program may copy, write to a file, read back and
 * send to another process of the same byte order. Every content is a legal argument.
 *
 * An image whose format is another, as that of books with no edition was, or one of whose flags (is_open, expanded, marked) is
 * neither 0 nor 1, holds no book; any other holds one, which may be unsound: no edition of the rule, a limit that is no limit,
 * a sheet with a month that the product does not trade, and so on. On an image with no book or an unsound one every call but a
 * founding returns BOTSKHELA_UNSOUND. A struct of zeros holds no book. Soundness is no checksum: a damaged image may well be a
 * sound book with another limit. Keep a checksum beside an image that leaves the program's memory, as examples/saved does.
 *
 * Read the fields as you like. Write them only by the calls.
 *
 * Groups are numbered 0 Corn, 1 the Soybean Complex, 2 the wheats (Chicago and KC), 3 Oats, 4 Rough Rice. The products of a group
 * share its level and mark; each has its own limits.
 */
typedef struct botskhela_book {
    uint32_t format; /* BOTSKHELA_FORMAT */

    uint32_t edition; /* BOTSKHELA_EDITION_2014 or _2023: the founding's, and _2023 after a conversion */

    uint32_t is_open; /* 1 while a day is open, else 0 */
    uint32_t year;    /* of the last opened day, with its left; four zeros before the first */
    uint32_t month;
    uint32_t day;
    uint32_t left;

    botskhela_limit limits[BOTSKHELA_PRODUCTS];     /* by product */
    botskhela_standing standings[BOTSKHELA_GROUPS]; /* by group */
    botskhela_windows windows;
    botskhela_product_sheet today[BOTSKHELA_PRODUCTS]; /* the sheets that are in on the open day, by product */
    botskhela_product_sheet last[BOTSKHELA_PRODUCTS];  /* the sheets of the last ended day, by product */

    /* What the last accepted calls answered. No call looks at it; a founding sets it to zeros. */
    uint32_t renewed[BOTSKHELA_PRODUCTS];     /* by an opening: 1 for a product that got new limits, else 0 */
    botskhela_event events[BOTSKHELA_GROUPS]; /* by an end, for each group */
} botskhela_book;

/* That this compiler lays the image out as the library does, in words of 4 bytes. */
#if defined __cplusplus && __cplusplus >= 201103L
#define BOTSKHELA_ASSERT(fact, name) static_assert(fact, name)
#elif defined __STDC_VERSION__ && __STDC_VERSION__ >= 201112L
#define BOTSKHELA_ASSERT(fact, name) _Static_assert(fact, name)
#else
#define BOTSKHELA_ASSERT(fact, name) extern const char botskhela_asserted[(fact) ? 1 : -1]
#endif
#define BOTSKHELA_AT(field, word) BOTSKHELA_ASSERT(offsetof(botskhela_book, field) == 4 * (word), #field)
BOTSKHELA_AT(format, 0);
BOTSKHELA_AT(edition, 1);
BOTSKHELA_AT(is_open, 2);
BOTSKHELA_AT(year, 3);
BOTSKHELA_AT(month, 4);
BOTSKHELA_AT(day, 5);
BOTSKHELA_AT(left, 6);
BOTSKHELA_AT(limits, 7);
BOTSKHELA_AT(standings, 23);
BOTSKHELA_AT(windows.counts, 33);
BOTSKHELA_AT(windows.settlements, 41);
BOTSKHELA_AT(today, 401);
BOTSKHELA_AT(last, 665);
BOTSKHELA_AT(renewed, 929);
BOTSKHELA_AT(events, 937);
BOTSKHELA_ASSERT(sizeof(botskhela_book) == 4 * 952, "botskhela_book");
BOTSKHELA_ASSERT(sizeof(botskhela_limit) == 4 * 2, "botskhela_limit");
BOTSKHELA_ASSERT(sizeof(botskhela_standing) == 4 * 2, "botskhela_standing");
BOTSKHELA_ASSERT(sizeof(botskhela_contract) == 4 * 2, "botskhela_contract");
BOTSKHELA_ASSERT(sizeof(botskhela_product_sheet) == 4 * 33, "botskhela_product_sheet");
BOTSKHELA_ASSERT(sizeof(botskhela_event) == 4 * 3, "botskhela_event");
BOTSKHELA_ASSERT(sizeof(botskhela_tally) == 4 * 6, "botskhela_tally");
BOTSKHELA_ASSERT(sizeof(botskhela_span) == 4 * 3, "botskhela_span");
#undef BOTSKHELA_AT
#undef BOTSKHELA_ASSERT

#ifdef __cplusplus
extern "C" {
#endif

/*
 * Judges one order on plain numbers.
 *
 * product     a product number above.
 * size        BOTSKHELA_STANDARD or BOTSKHELA_MINI.
 * settlement  the contract's settlement of the last ended day, 1 to 1,000,000, on the
 *             standard tick of the product, for a mini too.
 * amount      today's limit of the product: a multiple of its step, from its floor to
 *             2,000,000. A mini has the limit of its standard product.
 * spot        0 for a contract with a limit; any other number for a spot contract.
 * price       the order's price, 1 to 1,000,000, on the tick of the product and size.
 *
 *                   standard tick   mini tick   step   floor
 *     Corn                2             1        40     160
 *     Soybeans            2             1        40     400
 *     Soybean Oil         1           none       50     200
 *     Soybean Meal        1           none       50     200
 *     Chicago Wheat       2             1        40     240
 *     KC Wheat            2           none       40     240
 *     Oats                2           none       40     160
 *     Rough Rice          1           none       10     100
 *
 * Returns the first refusal that applies, in the order BOTSKHELA_NO_SUCH_PRODUCT,
 * BOTSKHELA_BAD_PRICE, BOTSKHELA_UNFIT_AMOUNT, and otherwise one of the four answers.
 * It returns no other number. A price exactly the amount away from the settlement is
 * within. A spot contract's numbers are judged like any other's before it is free.
 *
 * It keeps no state and may be called from several threads at once.
 */
uint32_t botskhela_bare_check(uint32_t product, uint32_t size, uint32_t settlement,
                              uint32_t amount, uint32_t spot, uint32_t price);

/*
 * The ends of the span of prices that the bare check of the same arguments goes by: the lowest and the highest price that it
 * finds within. Both are 0 where it is free or refused.
 *
 * The lowest is the settlement minus the amount, but not under the tick of the product and size; the highest is the
 * settlement plus the amount, but not over 1,000,000. Both are prices on that tick, the settlement is not below the one nor
 * above the other, and of the prices on that tick exactly those from the lowest to the highest are within. They keep no state
 * either.
 */
uint32_t botskhela_bare_lowest(uint32_t product, uint32_t size, uint32_t settlement,
                               uint32_t amount, uint32_t spot, uint32_t price);
uint32_t botskhela_bare_highest(uint32_t product, uint32_t size, uint32_t settlement,
                                uint32_t amount, uint32_t spot, uint32_t price);

/*
 * The bare check through a tally, which is not null.
 *
 * Returns BOTSKHELA_UNSOUND, where asked is not the sum of the other five, then BOTSKHELA_TALLY_FULL, and leaves the tally
 * as it is. Otherwise it returns what botskhela_bare_check returns, and counts it: one more asked, and one more of free,
 * within, below, above or, for a refusal, refused.
 *
 * A tally may be used by one call at a time.
 */
uint32_t botskhela_tallied_check(botskhela_tally *tally, uint32_t product, uint32_t size,
                                 uint32_t settlement, uint32_t amount, uint32_t spot,
                                 uint32_t price);

/*
 * The calls on a book.
 *
 * book is not null, is aligned as a uint32_t, and has sizeof(botskhela_book) bytes that may be read and, unless it is const,
 * written. One call at a time may write a book, and none may read it meanwhile; any number may read it at once.
 *
 * The calls but the checks return 0 where they are accepted. Refused, they return the first refusal that applies, in the
 * order given, and no byte of the book has changed. They return no other number.
 *
 * What is proved of each call stands in crates/gateway/specs/Calls.antt, and of whole lists of calls on one book in Images.antt:
 * from an accepted founding on, every number, renewed, events and the book itself are those of the rule.
 */

/*
 * A fresh book under an edition of the rule, with the eight initial limits, each a multiple of its product's step from its
 * floor to 1,000,000. Nothing that the pointer holds is looked at.
 *
 * Refusals: BOTSKHELA_UNKNOWN_EDITION, BOTSKHELA_UNFIT_AMOUNT.
 */
uint32_t botskhela_found(botskhela_book *book, uint32_t edition, uint32_t corn, uint32_t soybeans,
                         uint32_t soybean_oil, uint32_t soybean_meal, uint32_t chicago_wheat, uint32_t kc_wheat,
                         uint32_t oats, uint32_t rough_rice);

/*
 * Opens a day. left is the number of business days of the month after it, so that within a month each opening has a smaller
 * one than the opening before it. In the season after the last one, a product with 45 settlements in its window gets new
 * limits, and its whole group goes to the initial level with no mark. Sets renewed.
 *
 * Refusals: BOTSKHELA_UNSOUND, BOTSKHELA_WRONG_PHASE, BOTSKHELA_NO_SUCH_DATE, BOTSKHELA_NOT_LATER,
 * BOTSKHELA_LEFT_NOT_SMALLER.
 */
uint32_t botskhela_open(botskhela_book *book, uint32_t year, uint32_t month, uint32_t day, uint32_t left);

/*
 * Files a product's sheet of the open day: 1 to 16 contract months, ascending, and as many settlements.
 *
 * months has n_months numbers that may be read, and settlements n_settlements; a pointer to none is not null either. The two
 * may overlap each other, and neither overlaps the book.
 *
 * Refusals: BOTSKHELA_UNSOUND, BOTSKHELA_WRONG_PHASE, BOTSKHELA_NO_SUCH_PRODUCT, BOTSKHELA_ALREADY_IN, BOTSKHELA_MISSHAPEN,
 * BOTSKHELA_BAD_MONTH, BOTSKHELA_BAD_PRICE, BOTSKHELA_CONTRACT_ABSENT, BOTSKHELA_BEYOND_LIMIT.
 */
uint32_t botskhela_sheet(botskhela_book *book, uint32_t product, const uint32_t *months, size_t n_months,
                         const uint32_t *settlements, size_t n_settlements);

/*
 * Ends the open day. Sets events.
 *
 * Refusals: BOTSKHELA_UNSOUND, BOTSKHELA_WRONG_PHASE, BOTSKHELA_SHEET_OUTSTANDING.
 */
uint32_t botskhela_end(botskhela_book *book);

/*
 * Carries a book from the edition of 2014 to that of 2023, with no day open and every group at its initial level: the edition
 * changes, and nothing else; renewed and events stay too. A sound book under 2023 with no day open is accepted too, and no byte of
 * it changes.
 *
 * Refusals: BOTSKHELA_UNSOUND, BOTSKHELA_WRONG_PHASE, BOTSKHELA_GROUP_EXPANDED.
 */
uint32_t botskhela_convert(botskhela_book *book);

/*
 * Judges an order by the book: size as above, month the contract's, price on the tick of the product and size.
 *
 * Returns BOTSKHELA_FREE, _WITHIN, _BELOW or _ABOVE, or the first refusal that applies, in the order BOTSKHELA_UNSOUND,
 * BOTSKHELA_WRONG_PHASE, BOTSKHELA_NO_SUCH_PRODUCT, BOTSKHELA_NOT_LISTED, BOTSKHELA_BAD_PRICE. It returns no other number.
 */
uint32_t botskhela_check(const botskhela_book *book, uint32_t product, uint32_t size, uint32_t month,
                         uint32_t price);

/*
 * The same check, with its span: answer is what botskhela_check returns, refusals included, and lowest and highest are the ends
 * that the bare check of the contract's settlement and today's limit has. An order sent again at an end is within.
 */
botskhela_span botskhela_check_span(const botskhela_book *book, uint32_t product, uint32_t size, uint32_t month,
                                    uint32_t price);

/*
 * The check on a book through a tally, which is not null and does not overlap the book.
 *
 * Returns the tally's own BOTSKHELA_UNSOUND, then BOTSKHELA_TALLY_FULL, and leaves it as it is. Otherwise it returns what
 * botskhela_check returns, and counts it; a refusal, the book's own BOTSKHELA_UNSOUND too, counts as refused.
 */
uint32_t botskhela_tallied_book_check(botskhela_tally *tally, const botskhela_book *book, uint32_t product,
                                      uint32_t size, uint32_t month, uint32_t price);

#ifdef __cplusplus
}
#endif

#endif
