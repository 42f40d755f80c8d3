/* The header's constants against the numbers of docs/RULES.md; tests/run sees that none is left out. */
#include "compare.h"

#include <inttypes.h>
#include <stdio.h>

#include "botskhela.h"

#define CONSTANT(name, number) {#name, name, number}

static const struct constant {
    const char *name;
    uint32_t in_header, number;
} CONSTANTS[] = {
    CONSTANT(BOTSKHELA_CORN, 0),
    CONSTANT(BOTSKHELA_SOYBEANS, 1),
    CONSTANT(BOTSKHELA_SOYBEAN_OIL, 2),
    CONSTANT(BOTSKHELA_SOYBEAN_MEAL, 3),
    CONSTANT(BOTSKHELA_CHICAGO_WHEAT, 4),
    CONSTANT(BOTSKHELA_KC_WHEAT, 5),
    CONSTANT(BOTSKHELA_OATS, 6),
    CONSTANT(BOTSKHELA_ROUGH_RICE, 7),
    CONSTANT(BOTSKHELA_PRODUCTS, 8),
    CONSTANT(BOTSKHELA_GROUPS, 5),
    CONSTANT(BOTSKHELA_EDITION_2014, 2014),
    CONSTANT(BOTSKHELA_EDITION_2023, 2023),
    CONSTANT(BOTSKHELA_STANDARD, 0),
    CONSTANT(BOTSKHELA_MINI, 1),
    CONSTANT(BOTSKHELA_FREE, 100),
    CONSTANT(BOTSKHELA_WITHIN, 101),
    CONSTANT(BOTSKHELA_BELOW, 102),
    CONSTANT(BOTSKHELA_ABOVE, 103),
    CONSTANT(BOTSKHELA_UNSOUND, 1),
    CONSTANT(BOTSKHELA_WRONG_PHASE, 2),
    CONSTANT(BOTSKHELA_NO_SUCH_DATE, 3),
    CONSTANT(BOTSKHELA_NOT_LATER, 4),
    CONSTANT(BOTSKHELA_NO_SUCH_PRODUCT, 5),
    CONSTANT(BOTSKHELA_MISSHAPEN, 6),
    CONSTANT(BOTSKHELA_BAD_MONTH, 7),
    CONSTANT(BOTSKHELA_BAD_PRICE, 8),
    CONSTANT(BOTSKHELA_CONTRACT_ABSENT, 9),
    CONSTANT(BOTSKHELA_BEYOND_LIMIT, 10),
    CONSTANT(BOTSKHELA_ALREADY_IN, 11),
    CONSTANT(BOTSKHELA_SHEET_OUTSTANDING, 12),
    CONSTANT(BOTSKHELA_UNFIT_AMOUNT, 13),
    CONSTANT(BOTSKHELA_NOT_LISTED, 14),
    CONSTANT(BOTSKHELA_TALLY_FULL, 15),
    CONSTANT(BOTSKHELA_LEFT_NOT_SMALLER, 16),
    CONSTANT(BOTSKHELA_UNKNOWN_EDITION, 17),
    CONSTANT(BOTSKHELA_GROUP_EXPANDED, 18),
    /* The header's own: the rule numbers neither events nor formats. */
    CONSTANT(BOTSKHELA_QUIET, 0),
    CONSTANT(BOTSKHELA_TRIGGERED, 1),
    CONSTANT(BOTSKHELA_HELD, 2),
    CONSTANT(BOTSKHELA_REVERTED, 3),
    CONSTANT(BOTSKHELA_RAISED, 4),
    CONSTANT(BOTSKHELA_FORMAT, 3),
};

int failed_constants(int *total)
{
    const int count = (int)(sizeof CONSTANTS / sizeof CONSTANTS[0]);
    int differences = 0;

    for (int i = 0; i < count; i++) {
        const struct constant *constant = &CONSTANTS[i];

        if (constant->in_header == constant->number)
            continue;
        differences++;
        printf("FAILED %s: expected %" PRIu32 ", the header says %" PRIu32 "\n", constant->name,
               constant->number, constant->in_header);
    }
    printf("constants: %d, %d differences\n", count, differences);
    *total += 1;
    return differences != 0;
}
