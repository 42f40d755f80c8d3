/*
 * The lines of a history that change a book, as calls on it: found, open, sheet, end and convert, in the form that README.md
 * gives. The lines check, bare and book change nothing and are passed over, as blank lines and comments are. A line of over
 * 1023 characters is no call.
 */
#ifndef HISTORY_H
#define HISTORY_H

#include <stdint.h>
#include <stdio.h>

#include "botskhela.h"
#include "lines.h"

#define LONGEST_CALL 1023

/* A sheet of more contracts is refused as one of 17 is, so no more are kept. */
#define MOST_CONTRACTS 17

enum call { CALL_NO_MORE, CALL_NONE, CALL_FOUND, CALL_OPEN, CALL_SHEET, CALL_END, CALL_CONVERT };

struct history {
    FILE *file;
    unsigned long line; /* the number of the last line that was read */
};

static inline int make_found(botskhela_book *book, const char *text, uint32_t *refusal)
{
    uint32_t n[9];

    if (!read_numbers(text, n, 9))
        return 0;
    *refusal = botskhela_found(book, n[0], n[1], n[2], n[3], n[4], n[5], n[6], n[7], n[8]);
    return 1;
}

static inline int make_open(botskhela_book *book, const char *text, uint32_t *refusal)
{
    uint32_t n[4];

    if (!read_numbers(text, n, 4))
        return 0;
    *refusal = botskhela_open(book, n[0], n[1], n[2], n[3]);
    return 1;
}

/* Reads numbers as far as there are any, and returns what follows them. */
static inline const char *read_list(const char *text, uint32_t list[MOST_CONTRACTS], size_t *count)
{
    const char *next;
    uint32_t number;

    *count = 0;
    while ((next = read_number(text, &number)) != NULL) {
        if (*count < MOST_CONTRACTS)
            list[(*count)++] = number;
        text = next;
    }
    return text;
}

static inline int make_sheet(botskhela_book *book, const char *text, uint32_t *refusal)
{
    uint32_t product, months[MOST_CONTRACTS], settlements[MOST_CONTRACTS];
    size_t n_months, n_settlements;

    if ((text = read_number(text, &product)) == NULL || (text = read_word(text, "months")) == NULL)
        return 0;
    text = read_word(read_list(text, months, &n_months), "settlements");
    if (text == NULL || *skip_blanks(read_list(text, settlements, &n_settlements)) != '\0')
        return 0;
    *refusal = botskhela_sheet(book, product, months, n_months, settlements, n_settlements);
    return 1;
}

/* An end or a conversion, which take no numbers. */
static inline int make_plain(uint32_t (*call)(botskhela_book *), botskhela_book *book, const char *text,
                             uint32_t *refusal)
{
    if (*skip_blanks(text) != '\0')
        return 0;
    *refusal = call(book);
    return 1;
}

static inline enum call make_call(botskhela_book *book, const char *line, uint32_t *refusal)
{
    const char *rest;

    if ((rest = read_word(line, "found")) != NULL)
        return make_found(book, rest, refusal) ? CALL_FOUND : CALL_NONE;
    if ((rest = read_word(line, "open")) != NULL)
        return make_open(book, rest, refusal) ? CALL_OPEN : CALL_NONE;
    if ((rest = read_word(line, "sheet")) != NULL)
        return make_sheet(book, rest, refusal) ? CALL_SHEET : CALL_NONE;
    if ((rest = read_word(line, "end")) != NULL)
        return make_plain(botskhela_end, book, rest, refusal) ? CALL_END : CALL_NONE;
    if ((rest = read_word(line, "convert")) != NULL)
        return make_plain(botskhela_convert, book, rest, refusal) ? CALL_CONVERT : CALL_NONE;
    return CALL_NONE;
}

static inline int changes_nothing(enum line outcome, const char *line)
{
    return is_passed_over(outcome, line) || read_word(line, "check") != NULL || read_word(line, "bare") != NULL ||
           read_word(line, "book") != NULL;
}

/* Makes the call of the next line that has one; CALL_NONE for a line that is none, CALL_NO_MORE at the end. */
static inline enum call next_call(struct history *history, botskhela_book *book, uint32_t *refusal)
{
    char line[LONGEST_CALL + 1];
    enum line outcome;

    do {
        outcome = read_line(history->file, line, sizeof line);
        if (outcome == LINE_NONE)
            return CALL_NO_MORE;
        history->line++;
    } while (changes_nothing(outcome, line));
    return outcome == LINE_TOO_LONG ? CALL_NONE : make_call(book, line, refusal);
}

#endif
