/*
 * A book kept by a C program: runs the days of a history, then judges orders from standard input by the book.
 *
 *     gcc examples/book.c $(pkg-config --cflags --libs botskhela) -o book
 *     ./book examples/complex.history < examples/book-orders.txt
 *
 * Of the history it says the products that got new limits, what an end did to a group unless it is quiet, and each line that
 * is refused or no call; check, bare and book lines are passed over, as the orders come from standard input. An order is a
 * line PRODUCT SIZE MONTH PRICE of decimal numbers. Blank lines and lines that begin with # are passed over.
 */
#include <inttypes.h>
#include <stdint.h>
#include <stdio.h>

#include "book_orders.h"
#include "botskhela.h"
#include "history.h"
#include "lines.h"
#include "orders.h"
#include "words.h"

/* A struct of zeros holds no book: until a founding every call is refused. */
struct gateway {
    botskhela_book book;
    botskhela_tally tally;
};

static void print_date(const botskhela_book *book)
{
    printf("%04" PRIu32 "-%02" PRIu32 "-%02" PRIu32 " ", book->year, book->month, book->day);
}

static void print_renewed(const botskhela_book *book)
{
    for (uint32_t product = 0; product < BOTSKHELA_PRODUCTS; product++) {
        if (!book->renewed[product])
            continue;
        print_date(book);
        printf("%s: new limits %" PRIu32 " and %" PRIu32 "\n", product_name(product), book->limits[product].initial,
               book->limits[product].expanded);
    }
}

static void print_event(const botskhela_book *book, uint32_t group)
{
    const botskhela_event *event = &book->events[group];

    print_date(book);
    printf("%s: %s", group_name(group), event_name(event->kind));
    if (event->kind != BOTSKHELA_REVERTED)
        printf(" by %s %04" PRIu32 "-%02" PRIu32, product_name(event->product), event->month / 12,
               event->month % 12 + 1);
    putchar('\n');
}

static void print_events(const botskhela_book *book)
{
    for (uint32_t group = 0; group < BOTSKHELA_GROUPS; group++) {
        if (book->events[group].kind != BOTSKHELA_QUIET)
            print_event(book, group);
    }
}

static void print_call(enum call call, uint32_t refusal, unsigned long line, const botskhela_book *book)
{
    if (call == CALL_NONE)
        printf("line %lu: not a call\n", line);
    else if (refusal != 0)
        printf("line %lu: refused %" PRIu32 ", %s\n", line, refusal, refusal_name(refusal));
    else if (call == CALL_OPEN)
        print_renewed(book);
    else if (call == CALL_END)
        print_events(book);
}

/* 0 where the history cannot be read. */
static int run_history(const char *path, botskhela_book *book)
{
    struct history history = {fopen(path, "r"), 0};
    uint32_t refusal = 0;
    enum call call;
    int is_read;

    if (history.file == NULL)
        return 0;
    while ((call = next_call(&history, book, &refusal)) != CALL_NO_MORE)
        print_call(call, refusal, history.line, book);
    is_read = !ferror(history.file);
    fclose(history.file);
    return is_read;
}

static int judge(void *context, const char *line, botskhela_span *span)
{
    struct gateway *gateway = context;
    uint32_t order[ORDER_NUMBERS];

    if (!read_numbers(line, order, ORDER_NUMBERS))
        return 0;
    *span = judge_by_book(&gateway->tally, &gateway->book, order);
    return 1;
}

int main(int argc, char **argv)
{
    static struct gateway gateway;

    if (argc != 2) {
        fprintf(stderr, "usage: book HISTORY < ORDERS\n");
        return 2;
    }
    if (!run_history(argv[1], &gateway.book)) {
        perror(argv[1]);
        return 1;
    }
    answer_orders(judge, &gateway);
    print_tally(&gateway.tally);
    return status_of_streams();
}
