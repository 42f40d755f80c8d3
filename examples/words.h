/* The numbers of botskhela.h in words. */
#ifndef WORDS_H
#define WORDS_H

#include <stdint.h>

#include "botskhela.h"

static inline const char *product_name(uint32_t product)
{
    static const char *const names[BOTSKHELA_PRODUCTS] = {
        "Corn", "Soybeans", "Soybean Oil", "Soybean Meal", "Chicago Wheat", "KC Wheat", "Oats", "Rough Rice",
    };

    return product < BOTSKHELA_PRODUCTS ? names[product] : "no product";
}

static inline const char *group_name(uint32_t group)
{
    static const char *const names[BOTSKHELA_GROUPS] = {
        "Corn", "Soybean Complex", "Wheats", "Oats", "Rough Rice",
    };

    return group < BOTSKHELA_GROUPS ? names[group] : "no group";
}

static inline const char *event_name(uint32_t kind)
{
    switch (kind) {
    case BOTSKHELA_QUIET:
        return "quiet";
    case BOTSKHELA_TRIGGERED:
        return "triggered";
    case BOTSKHELA_HELD:
        return "held";
    case BOTSKHELA_REVERTED:
        return "reverted";
    case BOTSKHELA_RAISED:
        return "raised";
    default:
        return "no event";
    }
}

static inline const char *refusal_name(uint32_t refusal)
{
    static const char *const names[] = {
        [BOTSKHELA_UNSOUND] = "book or tally unsound",
        [BOTSKHELA_WRONG_PHASE] = "no day open, or one still open",
        [BOTSKHELA_NO_SUCH_DATE] = "no such date",
        [BOTSKHELA_NOT_LATER] = "date not later",
        [BOTSKHELA_NO_SUCH_PRODUCT] = "no such product or size",
        [BOTSKHELA_MISSHAPEN] = "sheet misshapen",
        [BOTSKHELA_BAD_MONTH] = "month of a sheet",
        [BOTSKHELA_BAD_PRICE] = "price or settlement",
        [BOTSKHELA_CONTRACT_ABSENT] = "contract absent",
        [BOTSKHELA_BEYOND_LIMIT] = "settlement beyond limit",
        [BOTSKHELA_ALREADY_IN] = "sheet already in",
        [BOTSKHELA_SHEET_OUTSTANDING] = "sheet outstanding",
        [BOTSKHELA_UNFIT_AMOUNT] = "amount",
        [BOTSKHELA_NOT_LISTED] = "month not listed",
        [BOTSKHELA_TALLY_FULL] = "tally full",
        [BOTSKHELA_LEFT_NOT_SMALLER] = "left not smaller",
        [BOTSKHELA_UNKNOWN_EDITION] = "no such edition",
        [BOTSKHELA_GROUP_EXPANDED] = "group expanded",
    };

    if (refusal == 0 || refusal >= sizeof names / sizeof names[0])
        return "unknown answer";
    return names[refusal];
}

/* An answer of a check. */
static inline const char *answer_name(uint32_t answer)
{
    switch (answer) {
    case BOTSKHELA_FREE:
        return "free";
    case BOTSKHELA_WITHIN:
        return "within";
    case BOTSKHELA_BELOW:
        return "below limit";
    case BOTSKHELA_ABOVE:
        return "above limit";
    default:
        return refusal_name(answer);
    }
}

#endif
