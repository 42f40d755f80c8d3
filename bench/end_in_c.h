/* What a day's moves do to the groups, for an end by book_in_c.c. */
#ifndef END_IN_C_H
#define END_IN_C_H

#include "dates_in_c.h"

/* A leading contract. There is none where its month is 0, as only later months have a limit. */
struct lead {
    uint32_t month, product;
};

/* Of a group, by what a move has to be: at the initial level of the first kind, at the expanded one of the other two. */
struct leads {
    struct lead trigger; /* exactly I, among the first N of a product that has enough of them */
    struct lead hold;    /* at least I, or under 2014 exactly E */
    struct lead reach;   /* exactly E */
};

/* No settlements are so far apart. */
#define NO_CHANGE UINT32_MAX

/* The nearest month; products come in their order, so the lowest number of it. */
static inline void take(struct lead *lead, uint32_t month, uint32_t product)
{
    if (lead->month == 0 || month < lead->month) {
        lead->month = month;
        lead->product = product;
    }
}

/* How far a contract moved, if it was on the last sheet. Both sheets ascend, so the place there is moved on. */
static inline uint32_t change_of(const botskhela_contract *contract,
                                 const botskhela_product_sheet *last, uint32_t *place)
{
    while (*place < last->count && last->contracts[*place].month < contract->month)
        ++*place;
    if (*place == last->count || last->contracts[*place].month != contract->month)
        return NO_CHANGE;
    return distance(contract->settlement, last->contracts[*place].settlement);
}

static inline void take_trigger(const botskhela_book *book, uint32_t product, struct leads *leads)
{
    const uint32_t enough = book->edition == BOTSKHELA_EDITION_2014 ? 2 : 1;
    const botskhela_product_sheet *today = &book->today[product];
    const uint32_t begin = first_limited(book, today), end = begin + FIRST[product];
    uint32_t first = 0, moves = 0, place = 0;

    for (uint32_t i = begin; i < end && i < today->count; i++) {
        const botskhela_contract *contract = &today->contracts[i];

        if (change_of(contract, &book->last[product], &place) != book->limits[product].initial)
            continue;
        if (moves == 0)
            first = contract->month;
        /* One of the last crop-year month counts as two. */
        moves += contract->month % 12 + 1 == LAST_CROP_MONTH[product] ? 2 : 1;
        if (moves >= enough) {
            take(&leads->trigger, first, product);
            return;
        }
    }
}

static inline void take_holding(const botskhela_book *book, uint32_t product, struct leads *leads)
{
    const int is_2014 = book->edition == BOTSKHELA_EDITION_2014;
    const botskhela_product_sheet *today = &book->today[product];
    const botskhela_limit *limit = &book->limits[product];
    uint32_t place = 0;

    for (uint32_t i = first_limited(book, today); i < today->count; i++) {
        const botskhela_contract *contract = &today->contracts[i];
        const uint32_t change = change_of(contract, &book->last[product], &place);

        if (change < limit->initial || change == NO_CHANGE)
            continue;
        if (change == limit->expanded)
            take(&leads->reach, contract->month, product);
        if (change == limit->expanded || !is_2014)
            take(&leads->hold, contract->month, product);
    }
}

/* What a day does to a group, with the leading contract of it; standing is moved on. */
static inline botskhela_event event_of(botskhela_standing *standing, const struct leads *leads,
                                       int has_marks)
{
    struct lead lead;
    uint32_t kind;

    if (!standing->expanded) {
        lead = leads->trigger;
        kind = lead.month != 0 ? BOTSKHELA_TRIGGERED : BOTSKHELA_QUIET;
    } else if (standing->marked && leads->reach.month != 0) {
        lead = leads->reach;
        kind = BOTSKHELA_RAISED;
    } else {
        lead = leads->hold;
        kind = lead.month != 0 ? BOTSKHELA_HELD : BOTSKHELA_REVERTED;
    }
    standing->expanded = kind == BOTSKHELA_TRIGGERED || kind == BOTSKHELA_HELD;
    standing->marked = kind == BOTSKHELA_HELD && has_marks && leads->reach.month != 0;
    return (botskhela_event){kind, lead.month, lead.product};
}

/* The contract whose settlement goes into a window on the open day; 0 where windows rest. */
static inline uint32_t collected_month(const botskhela_book *book, uint32_t product)
{
    const uint32_t january = book->year * 12, date = book->month * 100 + book->day;

    if (book->month >= 11)
        return january + 12 + 6;
    if (date <= 415)
        return january + 6;
    if (book->month < 5 || date > 1015)
        return 0;
    return january + (product == BOTSKHELA_SOYBEANS || product == BOTSKHELA_ROUGH_RICE ? 10 : 11);
}

/* A full window loses its oldest settlement. */
static inline void add_settlement(botskhela_windows *windows, uint32_t product, uint32_t settlement)
{
    uint32_t *settlements = windows->settlements[product];

    if (windows->counts[product] < WINDOW) {
        settlements[windows->counts[product]++] = settlement;
        return;
    }
    memmove(settlements, settlements + 1, (WINDOW - 1) * sizeof *settlements);
    settlements[WINDOW - 1] = settlement;
}

static inline void collect(botskhela_book *book, uint32_t product)
{
    const uint32_t month = collected_month(book, product);
    const botskhela_contract *contract;

    if (month == 0)
        return;
    contract = find(&book->today[product], month);
    if (contract != NULL)
        add_settlement(&book->windows, product, contract->settlement);
    else
        book->windows.counts[product] = 0;
}

static inline void raise(uint32_t product, botskhela_limit *limit)
{
    limit->initial = limit->expanded;
    limit->expanded = expanded_of(product, limit->initial);
}

#endif
