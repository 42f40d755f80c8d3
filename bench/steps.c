#include "steps.h"

#include <string.h>

#include "painted.h"

botskhela_span span;
void *(*volatile copy)(void *, const void *, size_t) = memcpy;

static botskhela_tally tally;

static uint32_t make_found(const struct library *library, const struct books *books,
                           botskhela_book *book, uint32_t turn)
{
    const uint32_t corn = FLOOR[BOTSKHELA_CORN] + STEP[BOTSKHELA_CORN] * (turn % 8);

    (void)books;
    return library->found(book, BOTSKHELA_EDITION_2023, corn, 600, 250, 200, 240, 240, 160, 100);
}

static uint32_t make_open(const struct library *library, const struct books *books,
                          botskhela_book *book, uint32_t turn)
{
    (void)books;
    return library->open(book, 2024, 12, 17 + turn % 8, 0);
}

/* The first day of the next season, on which every product with a full window gets new limits. */
static uint32_t make_season(const struct library *library, const struct books *books,
                            botskhela_book *book, uint32_t turn)
{
    (void)books;
    return library->open(book, 2025, 5, 1 + turn % 8, 0);
}

static uint32_t make_sheet(const struct library *library, const struct books *books,
                           botskhela_book *book, uint32_t turn)
{
    return file(library, books, book, turn % PRODUCTS);
}

static uint32_t make_last_sheet(const struct library *library, const struct books *books,
                                botskhela_book *book, uint32_t turn)
{
    (void)turn;
    return file(library, books, book, PRODUCTS - 1);
}

static uint32_t make_end(const struct library *library, const struct books *books,
                         botskhela_book *book, uint32_t turn)
{
    (void)books;
    (void)turn;
    return library->end(book);
}

static uint32_t make_convert(const struct library *library, const struct books *books,
                             botskhela_book *book, uint32_t turn)
{
    (void)books;
    (void)turn;
    return library->convert(book);
}

static uint32_t contract_of(const struct books *books, uint32_t turn)
{
    return turn / PRODUCTS % books->contracts;
}

/* Orders of each product and contract, below its limit, within it and above it. */
static uint32_t price_of(const struct books *books, uint32_t turn)
{
    const uint32_t settlement = books->settlements[turn % PRODUCTS][contract_of(books, turn)];

    return settlement + 800 * (turn % 3) - 800;
}

static uint32_t make_check(const struct library *library, const struct books *books,
                           botskhela_book *book, uint32_t turn)
{
    return library->check(book, turn % PRODUCTS, BOTSKHELA_STANDARD,
                          books->months[contract_of(books, turn)], price_of(books, turn));
}

static uint32_t make_check_span(const struct library *library, const struct books *books,
                                botskhela_book *book, uint32_t turn)
{
    span = library->check_span(book, turn % PRODUCTS, BOTSKHELA_STANDARD,
                               books->months[contract_of(books, turn)], price_of(books, turn));
    return span.answer;
}

static uint32_t make_tallied(const struct library *library, const struct books *books,
                             botskhela_book *book, uint32_t turn)
{
    return library->tallied_check(&tally, book, turn % PRODUCTS, BOTSKHELA_STANDARD,
                                  books->months[contract_of(books, turn)], price_of(books, turn));
}

static uint32_t make_bare(const struct library *library, const struct books *books,
                          botskhela_book *book, uint32_t turn)
{
    const uint32_t product = turn % PRODUCTS;

    (void)book;
    return library->bare_check(product, BOTSKHELA_STANDARD,
                               books->settlements[product][contract_of(books, turn)],
                               FLOOR[product], 0, price_of(books, turn));
}

static uint32_t make_nothing(const struct library *library, const struct books *books,
                             botskhela_book *book, uint32_t turn)
{
    (void)library;
    (void)books;
    (void)book;
    return turn;
}

const struct step STEP_OF[STEPS] = {
    {"found", make_found, ENDED, 1},
    {"open", make_open, ENDED, 1},
    {"open, next season", make_season, ENDED, 1},
    {"sheet", make_sheet, OPENED, 1},
    {"end", make_end, FILED, 1},
    {"convert", make_convert, ENDED_2014, 1},
    {"check", make_check, OPENED, 0},
    {"check_span", make_check_span, OPENED, 0},
    {"tallied_book_check", make_tallied, OPENED, 0},
};

const struct step FURTHER_STEP_OF[FURTHER_STEPS] = {
    {"sheet, the last", make_last_sheet, NEARLY_FILED, 1},
    {"end, all triggered", make_end, MOVED, 1},
    {"check, all filed", make_check, FILED, 0},
    {"bare_check", make_bare, FILED, 0},
};

const struct step COPY = {"a copy", make_nothing, ENDED, 1};
const struct step NOTHING = {"nothing", make_nothing, ENDED, 0};

struct one_call {
    const struct step *step;
    const struct library *library;
    const struct books *books;
    botskhela_book book;
};

static void make_one(void *argument)
{
    struct one_call *call = argument;

    call->step->make(call->library, call->books, &call->book, 0);
}

size_t stack_bytes(const struct step *step, const struct books *books,
                   const struct library *library)
{
    struct one_call call = {step, library, books, books->at[step->book]};

    return stack_of(make_one, &call);
}
