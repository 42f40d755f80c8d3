#include "drawn.h"

#include <string.h>

#include "dates_in_c.h"
#include "draw.h"

#define LENGTH(array) (sizeof(array) / sizeof((array)[0]))

uint32_t traded_month(uint32_t product, uint32_t month)
{
    while (!is_traded(product, month))
        month++;
    return month;
}

static void fill_limit(botskhela_limit *limit, uint32_t product)
{
    limit->initial = FLOOR[product] + STEP[product] * draw(draw(8) == 0 ? 40000 : 20);
    limit->expanded = expanded_of(product, limit->initial);
}

/* Some are flat, at settlements that make a season limit just half way between two. */
static void fill_window(uint32_t settlements[WINDOW], uint32_t product)
{
    const int is_flat = draw(4) == 0;
    const uint32_t settlement = STEP[product] * 50 * (1 + 2 * draw(10));

    for (uint32_t i = 0; i < WINDOW; i++)
        settlements[i] = is_flat ? settlement : 4000 + 2 * draw(5000);
}

static void fill_last(botskhela_product_sheet *sheet, uint32_t product, uint32_t month)
{
    for (uint32_t i = 0; i < CONTRACTS; i++) {
        month = traded_month(product, month);
        sheet->contracts[i].month = month++;
        sheet->contracts[i].settlement = 4000 + 2 * draw(5000);
    }
    sheet->count = draw(2) == 0 ? 1 + draw(CONTRACTS) : CONTRACTS;
}

/* The contracts of the last sheet, and of some products a few that moved by exactly a limit. */
static void fill_today(botskhela_book *book, uint32_t product)
{
    const botskhela_limit *limit = &book->limits[product];
    const int is_quiet = draw(2) == 0;
    botskhela_product_sheet *today = &book->today[product];

    *today = book->last[product];
    for (uint32_t i = 0; i < CONTRACTS; i++) {
        uint32_t *settlement = &today->contracts[i].settlement;
        const uint32_t by = draw(2) == 0 ? limit->initial : limit->expanded;

        if (is_quiet || draw(4) != 0)
            *settlement += 2 * draw(20);
        else
            *settlement += *settlement > by && draw(2) == 0 ? -by : by;
    }
    if (draw(2) == 0)
        today->count = 1 + draw(CONTRACTS);
}

static void fill_product(botskhela_book *book, uint32_t product, uint32_t month)
{
    fill_limit(&book->limits[product], product);
    book->windows.counts[product] = draw(2) == 0 ? draw(WINDOW + 1) : WINDOW;
    fill_window(book->windows.settlements[product], product);
    fill_last(&book->last[product], product, month);
    fill_today(book, product);
}

static void fill_date(botskhela_book *book)
{
    book->year = 2000 + (draw(8) == 0 ? draw(99) : 24);
    book->month = 1 + draw(12);
    book->day = 1 + draw(28);
    book->left = draw(2) == 0 ? draw(2) : draw(29 - book->day);
    if (book->left > 28 - book->day)
        book->left = 28 - book->day;
}

static void empty_sheets(botskhela_product_sheet sheets[PRODUCTS])
{
    for (uint32_t product = 0; product < PRODUCTS; product++)
        sheets[product].count = 0;
}

/* A sound book with full sheets or smaller ones, and a day open or none. */
static void fill_book(botskhela_book *book)
{
    uint32_t month;

    memset(book, 0, sizeof *book);
    book->format = BOTSKHELA_FORMAT;
    book->edition = draw(2) == 0 ? BOTSKHELA_EDITION_2014 : BOTSKHELA_EDITION_2023;
    book->is_open = draw(3) != 0;
    fill_date(book);
    month = trade_month(book) - draw(3);
    for (uint32_t product = 0; product < PRODUCTS; product++)
        fill_product(book, product, month);
    for (uint32_t group = 0; group < BOTSKHELA_GROUPS; group++) {
        book->standings[group].expanded = draw(2);
        book->standings[group].marked = book->standings[group].expanded &&
                                        book->edition == BOTSKHELA_EDITION_2023 && draw(2) == 0;
    }
    if (!book->is_open)
        empty_sheets(book->today);
    else if (draw(2) == 0)
        book->today[draw(PRODUCTS)].count = 0;
}

static botskhela_product_sheet *draw_sheet(botskhela_book *book, uint32_t product)
{
    return draw(2) == 0 ? &book->today[product] : &book->last[product];
}

/* Months from the ends of their range on, near together or far apart, and settlements of any size. */
static void spread_sheet(botskhela_book *book)
{
    static const uint32_t FROM[] = {
        0, 1, 11, 12, 24291, 24300, 0x7fffffe0, 0x80000000, 0xffffffa0, 0xffffff00, 0xfffff000,
    };
    const uint32_t product = draw(PRODUCTS), gap = 1 + draw(draw(3) == 0 ? 30 : 6);
    botskhela_product_sheet *sheet = draw_sheet(book, product);
    uint32_t month = draw(4) == 0 ? draw(UINT32_MAX) : FROM[draw(LENGTH(FROM))];

    for (uint32_t i = 0; i < CONTRACTS; i++) {
        month = traded_month(product, month);
        sheet->contracts[i].month = month;
        sheet->contracts[i].settlement = draw(64) == 0 ? draw_edge() : 2 + 2 * draw(500000);
        month += 1 + draw(gap);
    }
    sheet->count = draw(3) == 0 ? draw(CONTRACTS + 2) : CONTRACTS;
}

static void damage_contract(botskhela_book *book)
{
    botskhela_contract *contract = &draw_sheet(book, draw(PRODUCTS))->contracts[draw(CONTRACTS)];

    if (draw(2) == 0)
        contract->month = draw_number();
    else
        contract->settlement = draw_number();
}

/* One settlement for all, near the largest. */
static void damage_settlements(botskhela_book *book)
{
    const uint32_t settlement = LARGEST_PRICE - 3 + draw(6), product = draw(PRODUCTS);
    botskhela_product_sheet *sheet = draw_sheet(book, product);

    for (uint32_t i = 0; i < CONTRACTS; i++)
        sheet->contracts[i].settlement = settlement;
    for (uint32_t i = 0; i < WINDOW && draw(64) != 0; i++)
        book->windows.settlements[product][i] = settlement;
}

/* A month that is near the next one. */
static void damage_order(botskhela_book *book)
{
    botskhela_contract *contract =
        &draw_sheet(book, draw(PRODUCTS))->contracts[draw(CONTRACTS - 1)];

    contract[0].month = contract[1].month + draw(4) - 2;
}

static void damage_count(botskhela_book *book)
{
    const uint32_t product = draw(PRODUCTS);

    if (draw(2) == 0)
        draw_sheet(book, product)->count = draw(4) == 0 ? draw_number() : draw(20);
    else
        book->windows.counts[product] = draw(4) == 0 ? draw_number() : draw(50);
}

static void damage_window(botskhela_book *book)
{
    book->windows.settlements[draw(PRODUCTS)][draw(WINDOW)] = draw_number();
}

static void damage_limit(botskhela_book *book)
{
    const uint32_t product = draw(PRODUCTS);
    botskhela_limit *limit = &book->limits[product];

    if (draw(2) == 0) {
        *(draw(2) == 0 ? &limit->initial : &limit->expanded) = draw_number();
        return;
    }
    limit->initial = FLOOR[product] * draw(3) + STEP[product] * draw(60000);
    limit->expanded = expanded_of(product, limit->initial) + STEP[product] * (draw(8) == 0);
}

static void damage_date(botskhela_book *book)
{
    uint32_t *const parts[] = {&book->year, &book->month, &book->day, &book->left};
    static const uint32_t BOUNDS[] = {2101, 14, 33, 32};
    const uint32_t part = draw(LENGTH(parts));

    *parts[part] = draw(2) == 0 ? draw_number() : draw(BOUNDS[part]);
}

/* At the end of a month, or beyond it. */
static void damage_end_of_month(botskhela_book *book)
{
    book->year = 2000 + draw(3) * draw(50);
    book->month = draw(2) == 0 ? 2 : 1 + draw(12);
    book->day = 27 + draw(6);
    book->left = draw(3);
}

/* No day, with or without one open and sheets. */
static void damage_day(botskhela_book *book)
{
    book->year = book->month = book->day = book->left = 0;
    book->is_open = draw(4) == 0;
    if (draw(4) != 0)
        empty_sheets(book->today);
    if (draw(4) != 0)
        empty_sheets(book->last);
}

static void damage_flag(botskhela_book *book)
{
    botskhela_standing *standing = &book->standings[draw(BOTSKHELA_GROUPS)];
    uint32_t *const flags[] = {&book->is_open, &standing->expanded, &standing->marked};

    *flags[draw(LENGTH(flags))] = draw(8) == 0 ? draw_number() : draw(2);
}

static void damage_head(botskhela_book *book)
{
    if (draw(2) == 0)
        book->edition = draw(4) == 0 ? draw_number() : BOTSKHELA_EDITION_2014;
    else
        book->format = draw(4) == 0 ? draw_number() : BOTSKHELA_FORMAT;
}

static void (*const DAMAGES[])(botskhela_book *) = {
    damage_contract, damage_settlements,  damage_order, damage_count, damage_window, damage_limit,
    damage_date,     damage_end_of_month, damage_day,   damage_flag,  damage_head,   spread_sheet,
};

/* Anything may stand in places beyond a count. */
static void litter(botskhela_book *book, uint32_t product)
{
    for (uint32_t i = book->windows.counts[product]; i < WINDOW; i++)
        book->windows.settlements[product][i] = draw_edge();
    for (uint32_t i = book->today[product].count; i < CONTRACTS; i++)
        book->today[product].contracts[i] = (botskhela_contract){draw_edge(), draw_edge()};
    for (uint32_t i = book->last[product].count; i < CONTRACTS; i++)
        book->last[product].contracts[i] = (botskhela_contract){draw_edge(), draw_edge()};
}

void draw_book(botskhela_book *book)
{
    const uint32_t damages = draw(2) == 0 ? draw(4) : 0;

    fill_book(book);
    if (draw(4) == 0)
        spread_sheet(book);
    for (uint32_t i = 0; i < damages; i++)
        DAMAGES[draw(LENGTH(DAMAGES))](book);
    for (uint32_t product = 0; product < PRODUCTS; product++)
        if (draw(4) == 0)
            litter(book, product);
}
