/* Lines of words and decimal numbers, as the examples read them. */
#ifndef LINES_H
#define LINES_H

#include <stdint.h>
#include <stdio.h>
#include <string.h>

#define BLANKS " \t\r"

enum line { LINE_NONE, LINE_READ, LINE_TOO_LONG };

/* Reads a line without its newline; of one that has no room with its NUL, the beginning. */
static inline enum line read_line(FILE *input, char *line, size_t room)
{
    size_t length = 0;
    enum line outcome = LINE_NONE;
    int c;

    while ((c = getc(input)) != EOF) {
        if (outcome == LINE_NONE)
            outcome = LINE_READ;
        if (c == '\n')
            break;
        if (length + 1 == room) {
            outcome = LINE_TOO_LONG;
            continue;
        }
        /* A NUL would hide the rest of the line. */
        line[length++] = c == '\0' ? '?' : (char)c;
    }
    line[length] = '\0';
    return outcome;
}

static inline const char *skip_blanks(const char *text)
{
    return text + strspn(text, BLANKS);
}

/* Whether a line is blank or a comment, which begins with #. What a line that is too long ends with is not known. */
static inline int is_passed_over(enum line outcome, const char *line)
{
    return line[0] == '#' || (outcome == LINE_READ && *skip_blanks(line) == '\0');
}

static inline int is_word_end(const char *text)
{
    return *text == '\0' || strchr(BLANKS, *text) != NULL;
}

/* What follows the word; NULL where the text begins with another. */
static inline const char *read_word(const char *text, const char *word)
{
    const char *begin = skip_blanks(text);
    const char *end = begin + strlen(word);

    if (strncmp(begin, word, strlen(word)) != 0 || !is_word_end(end))
        return NULL;
    return end;
}

/* What follows the digits; NULL where they are no 32-bit number. */
static inline const char *read_number(const char *text, uint32_t *number)
{
    const char *digit = skip_blanks(text);
    const char *end = digit + strspn(digit, "0123456789");
    uint64_t value = 0;

    if (end == digit || !is_word_end(end))
        return NULL;
    for (; digit < end; digit++) {
        value = value * 10 + (uint64_t)(*digit - '0');
        if (value > UINT32_MAX)
            return NULL;
    }
    *number = (uint32_t)value;
    return end;
}

/* Reads a line of so many numbers; 0 where it is anything else. */
static inline int read_numbers(const char *text, uint32_t *numbers, size_t count)
{
    for (size_t i = 0; i < count; i++) {
        text = read_number(text, &numbers[i]);
        if (text == NULL)
            return 0;
    }
    return *skip_blanks(text) == '\0';
}

#endif
