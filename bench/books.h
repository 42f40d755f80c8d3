/* Books that calls have made, of one size, with the contracts and settlements that further calls are about. */
#ifndef BOOKS_H
#define BOOKS_H

#include "library.h"
#include "products.h"

/* So many fill the windows. */
#define FULL_DAYS 46

enum {
    ENDED,
    ENDED_2014,   /* the same under 2014 */
    OPENED,       /* the next day is open */
    NEARLY_FILED, /* all its sheets are in but the last */
    FILED,
    MOVED, /* filed, each settlement moved by exactly the limit */
    BOOKS
};

struct books {
    uint32_t contracts; /* of each product */
    uint32_t months[CONTRACTS];
    uint32_t settlements[PRODUCTS][CONTRACTS]; /* of the open day */
    botskhela_book at[BOOKS];
};

/* Lives through the days by the archive's calls, and says whether one was refused. */
int make_books(struct books *books, uint32_t contracts, uint32_t days);

uint32_t file(const struct library *library, const struct books *books, botskhela_book *book,
              uint32_t product);

#endif
