/*
 * The calls in plain C: a reference for speed, which is compared with the archive before both are measured, and no part of the
 * product. Compiled once for each library of book_in_c.h, which LIBRARY names: natural code, and with BEST the best shape found.
 */
#include "book_in_c.h"

#include <string.h>

#include "end_in_c.h"
#include "sound_in_c.h"

#define TEXT_OF(name) #name
#define TEXT(name) TEXT_OF(name)

static uint32_t found(botskhela_book *book, uint32_t edition, uint32_t corn, uint32_t soybeans,
                      uint32_t soybean_oil, uint32_t soybean_meal, uint32_t chicago_wheat,
                      uint32_t kc_wheat, uint32_t oats, uint32_t rough_rice)
{
    const uint32_t limits[PRODUCTS] = {corn,          soybeans, soybean_oil, soybean_meal,
                                       chicago_wheat, kc_wheat, oats,        rough_rice};

    if (edition != BOTSKHELA_EDITION_2014 && edition != BOTSKHELA_EDITION_2023)
        return BOTSKHELA_UNKNOWN_EDITION;
    for (uint32_t product = 0; product < PRODUCTS; product++)
        if (!is_fit(product, limits[product], LARGEST_FOUNDING))
            return BOTSKHELA_UNFIT_AMOUNT;
    memset(book, 0, sizeof *book);
    book->format = BOTSKHELA_FORMAT;
    book->edition = edition;
    for (uint32_t product = 0; product < PRODUCTS; product++) {
        book->limits[product].initial = limits[product];
        book->limits[product].expanded = expanded_of(product, limits[product]);
    }
    return 0;
}

/* 4 and 16, which only a book with a day has. */
static uint32_t date_refusal(const botskhela_book *book, uint32_t year, uint32_t month,
                             uint32_t day, uint32_t left)
{
    const uint32_t date = year * 10000 + month * 100 + day;

    if (date <= book->year * 10000 + book->month * 100 + book->day)
        return BOTSKHELA_NOT_LATER;
    if (year == book->year && month == book->month && left >= book->left)
        return BOTSKHELA_LEFT_NOT_SMALLER;
    return 0;
}

/* New limits for each product with a full window; its whole group starts anew. */
static void renew(botskhela_book *book)
{
    for (uint32_t product = 0; product < PRODUCTS; product++) {
        botskhela_limit *limit = &book->limits[product];
        botskhela_standing *standing = &book->standings[GROUP[product]];

        if (book->windows.counts[product] != WINDOW)
            continue;
        book->renewed[product] = 1;
        limit->initial = season_initial(product, book->windows.settlements[product]);
        limit->expanded = expanded_of(product, limit->initial);
        standing->expanded = 0;
        standing->marked = 0;
    }
}

static uint32_t open(botskhela_book *book, uint32_t year, uint32_t month, uint32_t day,
                     uint32_t left)
{
    uint32_t refusal, seasons = 0;

    if (!is_sound(book))
        return BOTSKHELA_UNSOUND;
    if (book->is_open)
        return BOTSKHELA_WRONG_PHASE;
    if (!is_true_day(year, month, day, left))
        return BOTSKHELA_NO_SUCH_DATE;
    if (has_day(book)) {
        refusal = date_refusal(book, year, month, day, left);
        if (refusal != 0)
            return refusal;
        seasons = season_of(year, month) - season_of(book->year, book->month);
    }
    memset(book->renewed, 0, sizeof book->renewed);
    if (seasons == 1)
        renew(book);
    if (seasons != 0)
        memset(book->windows.counts, 0, sizeof book->windows.counts);
    book->year = year;
    book->month = month;
    book->day = day;
    book->left = left;
    book->is_open = 1;
    return 0;
}

static int are_months(uint32_t product, const uint32_t *months, uint32_t count, uint32_t from)
{
    for (uint32_t i = 0; i < count; i++) {
        if (months[i] < from || !is_traded(product, months[i]))
            return 0;
        if (i > 0 && months[i] <= months[i - 1])
            return 0;
    }
    return 1;
}

#ifdef BEST
/* A quick test that only accepts, as that of a sound sheet. */
static int are_plainly_months(uint32_t product, const uint32_t *months, uint32_t count,
                              uint32_t from)
{
    const uint64_t traded = traded_from(product, months[0]);
    uint32_t month = months[0];

    if (month < from || months[count - 1] - month >= 48 || !(traded & 1))
        return 0;
    for (uint32_t i = 1; i < count; i++) {
        if (months[i] <= month || !(traded >> ((months[i] - months[0]) & 63) & 1))
            return 0;
        month = months[i];
    }
    return 1;
}
#endif

/* 7 and 8. */
static uint32_t contract_refusal(const botskhela_book *book, uint32_t product,
                                 const uint32_t *months, const uint32_t *settlements,
                                 uint32_t count)
{
    const uint32_t from = trade_month(book);

#ifdef BEST
    if (!are_plainly_months(product, months, count, from) &&
        !are_months(product, months, count, from))
        return BOTSKHELA_BAD_MONTH;
#else
    if (!are_months(product, months, count, from))
        return BOTSKHELA_BAD_MONTH;
#endif
    if (!are_prices(settlements, count, TICK[product][BOTSKHELA_STANDARD]))
        return BOTSKHELA_BAD_PRICE;
    return 0;
}

/* 9 and 10 in one pass, as the months of both sheets ascend. */
static uint32_t change_refusal(const botskhela_book *book, uint32_t product, const uint32_t *months,
                               const uint32_t *settlements, uint32_t count)
{
    const botskhela_product_sheet *last = &book->last[product];
    const uint32_t limit = limit_of(book, product);
    int is_beyond = 0;

    for (uint32_t i = 0, j = first_limited(book, last); j < last->count; j++) {
        const botskhela_contract *contract = &last->contracts[j];

        while (i < count && months[i] < contract->month)
            i++;
        if (i == count || months[i] != contract->month)
            return BOTSKHELA_CONTRACT_ABSENT;
        is_beyond |= limit < distance(settlements[i], contract->settlement);
    }
    return is_beyond ? BOTSKHELA_BEYOND_LIMIT : 0;
}

#ifdef BEST
/*
 * A quick test of 7 to 10 that only accepts: the last sheet's months, which a sound book has traded and ascending, each in its place,
 * with settlements on the tick and within the limit.
 */
static inline int is_plainly_after(const botskhela_book *book, uint32_t product,
                                   const uint32_t *months, const uint32_t *settlements,
                                   uint32_t count)
{
    const botskhela_product_sheet *last = &book->last[product];
    const uint32_t limit = limit_of(book, product), tick = TICK[product][BOTSKHELA_STANDARD];
    uint32_t joined = 0;
    int is_plain = months[0] >= trade_month(book);

    if (count != last->count)
        return 0;
    for (uint32_t i = 0; i < count; i++) {
        is_plain &= months[i] == last->contracts[i].month;
        is_plain &= distance(settlements[i], last->contracts[i].settlement) <= limit;
        joined |= settlements[i] - tick;
    }
    return is_plain && is_joined_sound(joined, tick);
}
#endif

static uint32_t entries_refusal(const botskhela_book *book, uint32_t product, const uint32_t *months,
                              const uint32_t *settlements, uint32_t count)
{
    uint32_t refusal;

#ifdef BEST
    if (is_plainly_after(book, product, months, settlements, count))
        return 0;
#endif
    refusal = contract_refusal(book, product, months, settlements, count);
    if (refusal == 0)
        refusal = change_refusal(book, product, months, settlements, count);
    return refusal;
}

static void keep(botskhela_product_sheet *sheet, const uint32_t *months,
                 const uint32_t *settlements, uint32_t count)
{
    sheet->count = count;
    for (uint32_t i = 0; i < count; i++) {
        sheet->contracts[i].month = months[i];
        sheet->contracts[i].settlement = settlements[i];
    }
}

static uint32_t sheet(botskhela_book *book, uint32_t product, const uint32_t *months,
                      size_t n_months, const uint32_t *settlements, size_t n_settlements)
{
    const uint32_t count = (uint32_t)n_months;
    uint32_t refusal;

    if (!is_sound(book))
        return BOTSKHELA_UNSOUND;
    if (!book->is_open)
        return BOTSKHELA_WRONG_PHASE;
    if (product >= PRODUCTS)
        return BOTSKHELA_NO_SUCH_PRODUCT;
    if (book->today[product].count != 0)
        return BOTSKHELA_ALREADY_IN;
    if (n_months != n_settlements || n_months == 0 || n_months > CONTRACTS)
        return BOTSKHELA_MISSHAPEN;
    refusal = entries_refusal(book, product, months, settlements, count);
    if (refusal == 0)
        keep(&book->today[product], months, settlements, count);
    return refusal;
}

static int are_all_in(const botskhela_book *book)
{
    for (uint32_t product = 0; product < PRODUCTS; product++)
        if (book->today[product].count == 0)
            return 0;
    return 1;
}

static void move_groups(botskhela_book *book)
{
    const int has_marks = book->edition == BOTSKHELA_EDITION_2023;
    struct leads leads[BOTSKHELA_GROUPS];

    memset(leads, 0, sizeof leads);
    for (uint32_t product = 0; product < PRODUCTS; product++) {
        const uint32_t group = GROUP[product];

        if (book->standings[group].expanded)
            take_holding(book, product, &leads[group]);
        else
            take_trigger(book, product, &leads[group]);
    }
    for (uint32_t group = 0; group < BOTSKHELA_GROUPS; group++)
        book->events[group] = event_of(&book->standings[group], &leads[group], has_marks);
}

static uint32_t end(botskhela_book *book)
{
    if (!is_sound(book))
        return BOTSKHELA_UNSOUND;
    if (!book->is_open)
        return BOTSKHELA_WRONG_PHASE;
    if (!are_all_in(book))
        return BOTSKHELA_SHEET_OUTSTANDING;
    move_groups(book);
    for (uint32_t product = 0; product < PRODUCTS; product++) {
        if (book->events[GROUP[product]].kind == BOTSKHELA_RAISED)
            raise(product, &book->limits[product]);
        collect(book, product);
    }
    memcpy(book->last, book->today, sizeof book->last);
    for (uint32_t product = 0; product < PRODUCTS; product++)
        book->today[product].count = 0;
    book->is_open = 0;
    return 0;
}

static uint32_t convert(botskhela_book *book)
{
    if (!is_sound(book))
        return BOTSKHELA_UNSOUND;
    if (book->is_open)
        return BOTSKHELA_WRONG_PHASE;
    if (book->edition == BOTSKHELA_EDITION_2014)
        for (uint32_t group = 0; group < BOTSKHELA_GROUPS; group++)
            if (book->standings[group].expanded)
                return BOTSKHELA_GROUP_EXPANDED;
    book->edition = BOTSKHELA_EDITION_2023;
    return 0;
}

/* The contract that an order is about, where nothing refuses the order; refusal says what does. */
static const botskhela_contract *ordered(const botskhela_book *book, uint32_t product,
                                         uint32_t size, uint32_t month, uint32_t price,
                                         uint32_t *refusal)
{
    const botskhela_contract *contract = NULL;

    if (!is_sound(book))
        *refusal = BOTSKHELA_UNSOUND;
    else if (!book->is_open)
        *refusal = BOTSKHELA_WRONG_PHASE;
    else if (!is_offered(product, size))
        *refusal = BOTSKHELA_NO_SUCH_PRODUCT;
    else if (month < trade_month(book) || (contract = find(&book->last[product], month)) == NULL)
        *refusal = BOTSKHELA_NOT_LISTED;
    else if (!is_price(price, TICK[product][size]))
        *refusal = BOTSKHELA_BAD_PRICE;
    else
        return contract;
    return NULL;
}

static uint32_t check(const botskhela_book *book, uint32_t product, uint32_t size, uint32_t month,
                      uint32_t price)
{
    uint32_t refusal = 0;
    const botskhela_contract *contract = ordered(book, product, size, month, price, &refusal);

    if (contract == NULL)
        return refusal;
    if (month < limited_from(book))
        return BOTSKHELA_FREE;
    return judge(contract->settlement, limit_of(book, product), price);
}

static botskhela_span check_span(const botskhela_book *book, uint32_t product, uint32_t size,
                                 uint32_t month, uint32_t price)
{
    botskhela_span span = {0, 0, 0};
    const botskhela_contract *contract = ordered(book, product, size, month, price, &span.answer);
    uint32_t limit, settlement, tick;

    if (contract == NULL)
        return span;
    if (month < limited_from(book)) {
        span.answer = BOTSKHELA_FREE;
        return span;
    }
    limit = limit_of(book, product);
    settlement = contract->settlement;
    tick = TICK[product][size];
    span.answer = judge(settlement, limit, price);
    span.lowest = settlement > limit + tick ? settlement - limit : tick;
    span.highest = settlement + limit < LARGEST_PRICE ? settlement + limit : LARGEST_PRICE;
    return span;
}

static uint32_t *count_of(botskhela_tally *tally, uint32_t answer)
{
    switch (answer) {
    case BOTSKHELA_FREE:
        return &tally->free;
    case BOTSKHELA_WITHIN:
        return &tally->within;
    case BOTSKHELA_BELOW:
        return &tally->below;
    case BOTSKHELA_ABOVE:
        return &tally->above;
    default:
        return &tally->refused;
    }
}

static uint32_t tallied_check(botskhela_tally *tally, const botskhela_book *book, uint32_t product,
                              uint32_t size, uint32_t month, uint32_t price)
{
    const uint64_t sum =
        (uint64_t)tally->free + tally->within + tally->below + tally->above + tally->refused;
    uint32_t answer;

    if (sum != tally->asked)
        return BOTSKHELA_UNSOUND;
    if (tally->asked == UINT32_MAX)
        return BOTSKHELA_TALLY_FULL;
    answer = check(book, product, size, month, price);
    tally->asked++;
    ++*count_of(tally, answer);
    return answer;
}

/* By the remainder, as the rule says it; in the best shape by the mask. */
#ifdef BEST
#define IS_BARE_PRICE(price, tick) is_price(price, tick)
#else
#define IS_BARE_PRICE(price, tick) ((price) - 1 < LARGEST_PRICE && (price) % (tick) == 0)
#endif

static uint32_t bare_check(uint32_t product, uint32_t size, uint32_t settlement, uint32_t amount,
                           uint32_t spot, uint32_t price)
{
    if (!is_offered(product, size))
        return BOTSKHELA_NO_SUCH_PRODUCT;
    if (!IS_BARE_PRICE(settlement, TICK[product][BOTSKHELA_STANDARD]) ||
        !IS_BARE_PRICE(price, TICK[product][size]))
        return BOTSKHELA_BAD_PRICE;
    if (!is_fit(product, amount, LARGEST_AMOUNT))
        return BOTSKHELA_UNFIT_AMOUNT;
    return spot != 0 ? BOTSKHELA_FREE : judge(settlement, amount, price);
}

const struct library LIBRARY = {
    .name = TEXT(LIBRARY),
    .found = found,
    .open = open,
    .sheet = sheet,
    .end = end,
    .convert = convert,
    .check = check,
    .check_span = check_span,
    .tallied_check = tallied_check,
    .bare_check = bare_check,
};
