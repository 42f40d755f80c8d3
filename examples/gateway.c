/*
 * A small gateway: reads orders from standard input, accepts or rejects each, and prints its tally at the end. Of an order
 * beyond its limit it says from which price to which it could have been sent.
 *
 *     gcc -Iinclude examples/gateway.c crates/gateway/out/libgateway.a -o gateway
 *     ./gateway < examples/orders.txt
 *
 * An order is a line PRODUCT SIZE SETTLEMENT AMOUNT SPOT PRICE of decimal numbers.
 * Blank lines and lines that begin with # are passed over.
 */
#include <stdint.h>

#include "botskhela.h"
#include "lines.h"
#include "orders.h"

#define ORDER_NUMBERS 6

static int judge(void *gateway, const char *line, botskhela_span *span)
{
    botskhela_tally *tally = gateway;
    uint32_t order[ORDER_NUMBERS];

    if (!read_numbers(line, order, ORDER_NUMBERS))
        return 0;
    span->answer = botskhela_tallied_check(tally, order[0], order[1], order[2], order[3], order[4], order[5]);
    if (!is_beyond_limit(span->answer))
        return 1;
    span->lowest = botskhela_bare_lowest(order[0], order[1], order[2], order[3], order[4], order[5]);
    span->highest = botskhela_bare_highest(order[0], order[1], order[2], order[3], order[4], order[5]);
    return 1;
}

int main(void)
{
    botskhela_tally tally = {0, 0, 0, 0, 0, 0};

    answer_orders(judge, &tally);
    print_tally(&tally);
    return status_of_streams();
}
