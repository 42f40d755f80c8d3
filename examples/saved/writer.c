/*
 * The one writer of a saved book: reads the lines of a history from standard input, makes the calls, and saves the book after
 * each that is accepted. An answer is printed once its book is on the disk, in the words of `replay`.
 *
 *     gcc examples/saved/writer.c examples/saved/image_file.c $(pkg-config --cflags --libs botskhela zlib) -o writer
 *     ./writer FILE < examples/complex.history
 *
 * Started again it loads FILE and goes on where it stopped; it says on standard error where that is. Fed again from the
 * opening of the day that it names, it refuses what that day had already and makes the rest, so nobody has to know at which
 * line it was killed; but leave out a conversion or an opening that was refused while the day was open, as it may be accepted
 * now that the day has ended. check, bare and book lines are passed over. A FILE that is not whole is not written over: bring
 * back a good one, or take it away to begin anew.
 */
#include <inttypes.h>
#include <stdint.h>
#include <stdio.h>

#include "../history.h"
#include "../words.h"
#include "botskhela.h"
#include "image_file.h"

static unsigned sheets_in(const botskhela_book *book)
{
    unsigned in = 0;

    for (uint32_t product = 0; product < BOTSKHELA_PRODUCTS; product++)
        in += book->today[product].count != 0;
    return in;
}

static void say_standing(const char *path, const botskhela_book *book)
{
    if (book->format != BOTSKHELA_FORMAT)
        fprintf(stderr, "%s: no book yet\n", path);
    else if (book->year == 0)
        fprintf(stderr, "%s: founded, no day yet\n", path);
    else if (book->is_open)
        fprintf(stderr, "%s: day %" PRIu32 " %" PRIu32 " %" PRIu32 " open, %u sheets in\n", path, book->year,
                book->month, book->day, sheets_in(book));
    else
        fprintf(stderr, "%s: day %" PRIu32 " %" PRIu32 " %" PRIu32 " ended\n", path, book->year, book->month,
                book->day);
}

static void print_renewed(const botskhela_book *book)
{
    printf("opened");
    for (uint32_t product = 0; product < BOTSKHELA_PRODUCTS; product++)
        printf(" %" PRIu32, book->renewed[product]);
    putchar('\n');
}

static void print_events(const botskhela_book *book)
{
    printf("ended");
    for (uint32_t group = 0; group < BOTSKHELA_GROUPS; group++) {
        const botskhela_event *event = &book->events[group];

        printf(" %s", event_name(event->kind));
        if (event->kind != BOTSKHELA_QUIET && event->kind != BOTSKHELA_REVERTED)
            printf(":%" PRIu32 ":%" PRIu32, event->month, event->product);
    }
    putchar('\n');
}

static void print_answer(enum call call, uint32_t refusal, const botskhela_book *book)
{
    if (call == CALL_NONE)
        puts("not a call");
    else if (refusal != 0)
        printf("refused %" PRIu32 "\n", refusal);
    else if (call == CALL_FOUND)
        puts("founded");
    else if (call == CALL_OPEN)
        print_renewed(book);
    else if (call == CALL_SHEET)
        puts("filed");
    else if (call == CALL_CONVERT)
        puts("converted");
    else
        print_events(book);
}

/* 0, or -1 where a saving failed. Its call is not answered: the file says, at the next start, whether it was made. */
static int write_book(const char *path, botskhela_book *book)
{
    struct history history = {stdin, 0};
    uint32_t refusal = 0;
    enum call call;

    while ((call = next_call(&history, book, &refusal)) != CALL_NO_MORE) {
        if (call != CALL_NONE && refusal == 0 && image_save(path, book) != 0)
            return -1;
        print_answer(call, refusal, book);
        fflush(stdout);
    }
    return 0;
}

int main(int argc, char **argv)
{
    static botskhela_book book;
    enum image_state state;

    if (argc != 2) {
        fprintf(stderr, "usage: writer FILE < HISTORY\n");
        return 2;
    }
    if (image_claim(argv[1]) != 0) {
        fprintf(stderr, "%s: not claimed, another writer may have it: ", argv[1]);
        perror(NULL);
        return 1;
    }
    state = image_load(argv[1], &book);
    if (state != IMAGE_WHOLE && state != IMAGE_MISSING) {
        fprintf(stderr, "%s: %s, left as it is\n", argv[1], image_state_name(state));
        return 1;
    }
    say_standing(argv[1], &book);
    if (write_book(argv[1], &book) != 0) {
        perror(argv[1]);
        return 1;
    }
    return ferror(stdin) || ferror(stdout);
}
