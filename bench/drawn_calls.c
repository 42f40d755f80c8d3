#include "drawn.h"

#include "dates_in_c.h"
#include "draw.h"

static uint32_t draw_edition(void)
{
    if (draw(16) == 0)
        return draw_number();
    return draw(2) == 0 ? BOTSKHELA_EDITION_2014 : BOTSKHELA_EDITION_2023;
}

static void draw_found(uint32_t numbers[NUMBERS])
{
    numbers[0] = draw_edition();
    for (uint32_t product = 0; product < PRODUCTS; product++)
        numbers[1 + product] = FLOOR[product] + STEP[product] * draw(20);
    if (draw(4) == 0)
        numbers[1 + draw(PRODUCTS)] = draw_number();
}

/* A day or two later, some months later, or any day. */
static void draw_open(uint32_t numbers[NUMBERS], const botskhela_book *book)
{
    uint32_t month = trade_month(book), day = book->day + 1 + draw(2);

    if (book->year == 0)
        month = (2010 + draw(30)) * 12 + draw(12);
    if (draw(20) == 0)
        month += draw(9);
    if (day > 28) {
        day = 1 + draw(3);
        month++;
    }
    numbers[0] = month / 12;
    numbers[1] = month % 12 + 1;
    numbers[2] = day;
    numbers[3] = 28 - day + draw(2);
    if (draw(16) == 0)
        numbers[draw(4)] = draw_number();
    if (draw(32) == 0)
        numbers[2] = book->day;
}

/* The last settlement, or away from it by a little or, unless the day is quiet, by a limit. */
static uint32_t draw_settlement(const botskhela_book *book, uint32_t product, uint32_t last,
                                int is_quiet)
{
    const uint32_t limit = limit_of(book, product);

    switch (is_quiet ? 0 : draw(12)) {
    case 0:
        return last + 2 * draw(20);
    case 1:
        return last + limit;
    case 2:
        return last - limit;
    case 3:
        return last + book->limits[product].initial;
    case 4:
        return last + (draw(8) == 0 ? limit + 2 : 0);
    default:
        return last;
    }
}

static void add(struct call *call, uint32_t month, uint32_t settlement)
{
    if (call->n_months == ARRAY)
        return;
    call->months[call->n_months++] = month;
    call->settlements[call->n_settlements++] = settlement > 900000 ? 4000 : settlement;
}

/* The contracts of the last sheet that are not past, and further ones up to a number. */
static void draw_contracts(struct call *call, const botskhela_book *book, uint32_t product)
{
    const botskhela_product_sheet *last = &book->last[product];
    const uint32_t now = trade_month(book);
    const uint32_t most = draw(8) == 0 ? 1 + draw(ARRAY) : 12;
    const int is_quiet = draw(2) == 0;
    uint32_t month = now;

    for (uint32_t i = 0; i < last->count && i < CONTRACTS; i++) {
        const botskhela_contract *contract = &last->contracts[i];

        if (contract->month < now || draw(64) == 0)
            continue;
        add(call, contract->month, draw_settlement(book, product, contract->settlement, is_quiet));
        month = contract->month + 1;
    }
    while (call->n_months < most) {
        month = traded_month(product, month);
        add(call, month++, 4000 + 2 * draw(500));
    }
}

static void draw_sheet(struct call *call, const botskhela_book *book)
{
    uint32_t product = draw(PRODUCTS);

    /* Mostly one that is not in. */
    while (book->today[product].count != 0 && draw(16) != 0)
        product = draw(PRODUCTS);
    call->numbers[0] = draw(64) == 0 ? draw_number() : product;
    draw_contracts(call, book, product);
    if (draw(16) == 0)
        call->months[draw((uint32_t)call->n_months)] += draw(5) - 2;
    if (draw(16) == 0)
        call->settlements[draw((uint32_t)call->n_months)] = draw_number();
    if (draw(64) == 0)
        call->n_settlements = draw(ARRAY);
    if (draw(64) == 0)
        call->n_months = call->n_settlements = 0;
}

static uint32_t draw_size(void)
{
    return draw(4) != 0 ? BOTSKHELA_STANDARD : draw(3);
}

/* An order for a contract of the last sheet, or near it. */
static void draw_order(uint32_t numbers[NUMBERS], const botskhela_book *book)
{
    const uint32_t product = draw(PRODUCTS);
    const botskhela_contract *contract = &book->last[product].contracts[draw(CONTRACTS)];

    numbers[0] = draw(16) == 0 ? draw_number() : product;
    numbers[1] = draw_size();
    numbers[2] = contract->month + (draw(8) == 0 ? draw(5) - 2 : 0);
    numbers[3] = contract->settlement + (draw(2) == 0 ? draw(200) - 100 : draw(3000) - 1500);
    if (draw(8) == 0)
        numbers[3] = draw_edge();
}

static void draw_bare(uint32_t numbers[NUMBERS])
{
    const uint32_t product = draw(PRODUCTS), size = draw_size();
    const uint32_t settlement = 4000 + 2 * draw(4000);
    const uint32_t amount = FLOOR[product] + STEP[product] * draw(20);

    numbers[0] = product;
    numbers[1] = size;
    numbers[2] = settlement;
    numbers[3] = amount;
    numbers[4] = draw(4) == 0;
    numbers[5] = settlement + draw(3 * amount) - 3 * amount / 2;
    if (draw(4) == 0)
        numbers[draw(6)] = draw_number();
}

void draw_call(struct call *call, enum kind kind, const botskhela_book *book)
{
    call->kind = kind;
    call->n_months = call->n_settlements = 0;
    switch (kind) {
    case FOUND:
        draw_found(call->numbers);
        break;
    case OPEN:
        draw_open(call->numbers, book);
        break;
    case SHEET:
        draw_sheet(call, book);
        break;
    case CHECK:
    case CHECK_SPAN:
    case TALLIED_CHECK:
        draw_order(call->numbers, book);
        break;
    case BARE_CHECK:
        draw_bare(call->numbers);
        break;
    default:
        break;
    }
}

void draw_tally(botskhela_tally *tally)
{
    const uint32_t asked = draw(4) == 0 ? UINT32_MAX : 1 + draw(1000);
    const uint32_t free = draw(asked);

    *tally = (botskhela_tally){asked, free, asked - free, 0, 0, draw(8) == 0};
    /* A sum that is as large as the number asked only in 32 bits. */
    if (draw(16) == 0) {
        tally->below = UINT32_MAX;
        tally->refused = 1;
    }
}
