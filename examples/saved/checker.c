/*
 * A gateway on a saved book that it never writes: judges orders from standard input, each by the book that stands in FILE at
 * that moment. Any number of them may run beside the one writer.
 *
 *     gcc examples/saved/checker.c examples/saved/image_file.c $(pkg-config --cflags --libs botskhela zlib) -o checker
 *     ./checker FILE < examples/book-orders.txt
 *
 * An order is a line PRODUCT SIZE MONTH PRICE of decimal numbers. While FILE is missing or not whole every order is rejected.
 * How many books were read, and how often FILE was not whole, is said on standard error at the end.
 */
#include <stdint.h>
#include <stdio.h>
#include <string.h>

#include "../book_orders.h"
#include "../lines.h"
#include "../orders.h"
#include "botskhela.h"
#include "image_file.h"

struct gateway {
    const char *path;
    FILE *file; /* that the book was read from, kept open; NULL where there is no whole one */
    botskhela_book book;
    botskhela_tally tally;
    unsigned long books, failures;
};

/* Zeros hold no book, so no order passes. */
static void forget_book(struct gateway *gateway)
{
    if (gateway->file != NULL)
        fclose(gateway->file);
    gateway->file = NULL;
    memset(&gateway->book, 0, sizeof gateway->book);
}

static void take_book(struct gateway *gateway)
{
    forget_book(gateway);
    gateway->file = fopen(gateway->path, "rb");
    if (gateway->file != NULL && image_read(gateway->file, &gateway->book) == IMAGE_WHOLE) {
        gateway->books++;
        return;
    }
    gateway->failures++;
    forget_book(gateway);
}

static int judge(void *context, const char *line, botskhela_span *span)
{
    struct gateway *gateway = context;
    uint32_t order[ORDER_NUMBERS];

    if (!read_numbers(line, order, ORDER_NUMBERS))
        return 0;
    if (gateway->file == NULL || !image_is_current(gateway->file, gateway->path))
        take_book(gateway);
    *span = judge_by_book(&gateway->tally, &gateway->book, order);
    return 1;
}

int main(int argc, char **argv)
{
    static struct gateway gateway;

    if (argc != 2) {
        fprintf(stderr, "usage: checker FILE < ORDERS\n");
        return 2;
    }
    gateway.path = argv[1];
    setvbuf(stdout, NULL, _IOLBF, 0);
    answer_orders(judge, &gateway);
    print_tally(&gateway.tally);
    fprintf(stderr, "%lu books read, %lu times no whole one\n", gateway.books, gateway.failures);
    return status_of_streams();
}
