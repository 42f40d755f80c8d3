#include "call.h"

const char *const KIND_NAME[KINDS] = {
    "found",      "open", "sheet", "end", "convert", "check", "check_span", "tallied_book_check",
    "bare_check",
};

static uint32_t make_change(const struct library *library, botskhela_book *book,
                            const struct call *call)
{
    const uint32_t *n = call->numbers;

    switch (call->kind) {
    case FOUND:
        return library->found(book, n[0], n[1], n[2], n[3], n[4], n[5], n[6], n[7], n[8]);
    case OPEN:
        return library->open(book, n[0], n[1], n[2], n[3]);
    case SHEET:
        return library->sheet(book, n[0], call->months, call->n_months, call->settlements,
                              call->n_settlements);
    case END:
        return library->end(book);
    default:
        return library->convert(book);
    }
}

botskhela_span make_call(const struct library *library, struct state *state,
                         const struct call *call)
{
    const uint32_t *n = call->numbers;
    botskhela_span span = {0, 0, 0};

    switch (call->kind) {
    case CHECK:
        span.answer = library->check(&state->book, n[0], n[1], n[2], n[3]);
        break;
    case CHECK_SPAN:
        span = library->check_span(&state->book, n[0], n[1], n[2], n[3]);
        break;
    case TALLIED_CHECK:
        span.answer = library->tallied_check(&state->tally, &state->book, n[0], n[1], n[2], n[3]);
        break;
    case BARE_CHECK:
        span.answer = library->bare_check(n[0], n[1], n[2], n[3], n[4], n[5]);
        break;
    default:
        span.answer = make_change(library, &state->book, call);
    }
    return span;
}
