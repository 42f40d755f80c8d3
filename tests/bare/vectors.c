/* Calls whose answers were worked out by hand from docs/RULES.md. */
#include "compare.h"

#include <stdio.h>

#include "botskhela.h"

struct vector {
    struct call call;
    botskhela_span span;
    const char *why;
};

/* product, size, settlement, amount, spot, price; answer, lowest and highest price allowed. */
static const struct vector VECTORS[] = {
    {{BOTSKHELA_CORN, 0, 6000, 200, 0, 6000}, {101, 5800, 6200}, "at the settlement"},
    {{BOTSKHELA_CORN, 0, 6000, 200, 0, 6200}, {101, 5800, 6200}, "the highest is within"},
    {{BOTSKHELA_CORN, 0, 6000, 200, 0, 6202}, {103, 5800, 6200}, "a tick above"},
    {{BOTSKHELA_CORN, 0, 6000, 200, 0, 5800}, {101, 5800, 6200}, "the lowest is within"},
    {{BOTSKHELA_CORN, 0, 6000, 200, 0, 5798}, {102, 5800, 6200}, "a tick below"},
    {{BOTSKHELA_CORN, 1, 6000, 200, 0, 6199}, {101, 5800, 6200}, "a mini's tick within"},
    {{BOTSKHELA_CORN, 1, 6000, 200, 0, 6201}, {103, 5800, 6200}, "a mini's tick above"},
    {{BOTSKHELA_CORN, 1, 6000, 200, 0, 5799}, {102, 5800, 6200}, "a mini's tick below"},
    {{BOTSKHELA_CORN, 0, 6000, 200, 1, 6202}, {100, 0, 0}, "spot has no limit"},
    {{BOTSKHELA_CORN, 0, 6000, 200, UINT32_MAX, 2}, {100, 0, 0}, "any number but 0 is spot"},
    {{BOTSKHELA_CORN, 0, 100, 200, 0, 2}, {101, 2, 300}, "the limit reaches below every price"},
    {{BOTSKHELA_CORN, 0, 2, 2000000, 0, 1000000}, {101, 2, 1000000}, "the largest amount"},
    {{BOTSKHELA_CORN, 0, 1000000, 160, 0, 999840}, {101, 999840, 1000000}, "at 1,000,000"},
    {{BOTSKHELA_CORN, 0, 1000000, 160, 0, 999838}, {102, 999840, 1000000}, "below 1,000,000"},
    {{BOTSKHELA_CORN, 0, 202, 200, 0, 402}, {101, 2, 402}, "the lowest is the tick itself"},
    {{BOTSKHELA_CORN, 0, 200, 200, 0, 400}, {101, 2, 400}, "the lowest is not 0"},
    {{BOTSKHELA_CORN, 0, 200, 200, 0, 402}, {103, 2, 400}, "above, with the lowest at the tick"},
    {{BOTSKHELA_CORN, 1, 200, 200, 0, 1}, {101, 1, 400}, "the lowest is a mini's tick"},
    {{BOTSKHELA_CORN, 1, 202, 200, 0, 1}, {102, 2, 402}, "a mini's tick below the lowest"},
    {{BOTSKHELA_CORN, 0, 999800, 200, 0, 2}, {102, 999600, 1000000}, "the highest is 1,000,000"},
    {{BOTSKHELA_CORN, 0, 999802, 200, 0, 2}, {102, 999602, 1000000}, "the highest is cut off"},
    {{BOTSKHELA_CORN, 1, 999900, 160, 0, 999999}, {101, 999740, 1000000}, "a mini near 1,000,000"},
    {{BOTSKHELA_SOYBEANS, 1, 10000, 400, 0, 10401}, {103, 9600, 10400}, "a mini of Soybeans"},
    {{BOTSKHELA_SOYBEANS, 1, 400, 400, 0, 801}, {103, 1, 800}, "a mini of Soybeans from 1"},
    {{BOTSKHELA_SOYBEANS, 0, 400, 400, 0, 802}, {103, 2, 800}, "Soybeans from 2"},
    {{BOTSKHELA_SOYBEAN_OIL, 0, 5001, 200, 0, 5201}, {101, 4801, 5201}, "Oil's tick is 1"},
    {{BOTSKHELA_SOYBEAN_OIL, 0, 5001, 200, 0, 5202}, {103, 4801, 5201}, "a tick of Oil above"},
    {{BOTSKHELA_SOYBEAN_OIL, 0, 199, 200, 0, 400}, {103, 1, 399}, "Oil from 1"},
    {{BOTSKHELA_SOYBEAN_MEAL, 0, 4001, 250, 0, 3750}, {102, 3751, 4251}, "a tick of Meal below"},
    {{BOTSKHELA_SOYBEAN_MEAL, 0, 999999, 200, 0, 5}, {102, 999799, 1000000}, "Meal to 1,000,000"},
    {{BOTSKHELA_CHICAGO_WHEAT, 1, 5000, 240, 0, 4759}, {102, 4760, 5240}, "a mini of Chicago Wheat"},
    {{BOTSKHELA_CHICAGO_WHEAT, 1, 238, 240, 0, 3}, {101, 1, 478}, "a mini of Chicago Wheat from 1"},
    {{BOTSKHELA_CHICAGO_WHEAT, 0, 238, 240, 0, 4}, {101, 2, 478}, "Chicago Wheat from 2"},
    {{BOTSKHELA_KC_WHEAT, 0, 5000, 240, 0, 4760}, {101, 4760, 5240}, "KC Wheat at its floor"},
    {{BOTSKHELA_OATS, 0, 3000, 160, 0, 3162}, {103, 2840, 3160}, "Oats at their floor"},
    {{BOTSKHELA_ROUGH_RICE, 0, 3001, 110, 0, 3111}, {101, 2891, 3111}, "Rice's step is 10"},
    {{BOTSKHELA_ROUGH_RICE, 0, 1, 100, 0, 102}, {103, 1, 101}, "the smallest settlement"},
    {{8, 0, 6000, 200, 0, 6000}, {5, 0, 0}, "no product 8"},
    {{UINT32_MAX, 0, 6000, 200, 0, 6000}, {5, 0, 0}, "no such product"},
    {{BOTSKHELA_CORN, 2, 6000, 200, 0, 6000}, {5, 0, 0}, "no size 2"},
    {{BOTSKHELA_KC_WHEAT, 1, 5000, 240, 0, 5000}, {5, 0, 0}, "no mini of KC Wheat"},
    {{BOTSKHELA_OATS, 1, 3000, 160, 0, 3000}, {5, 0, 0}, "no mini of Oats"},
    {{BOTSKHELA_CORN, 0, 6000, 200, 0, 6001}, {8, 0, 0}, "an odd price of a standard"},
    {{BOTSKHELA_CORN, 0, 6001, 200, 0, 6000}, {8, 0, 0}, "an odd settlement"},
    {{BOTSKHELA_CORN, 1, 6001, 200, 0, 6000}, {8, 0, 0}, "a mini has a standard settlement"},
    {{BOTSKHELA_CORN, 0, 6000, 200, 0, 0}, {8, 0, 0}, "prices begin at 1"},
    {{BOTSKHELA_CORN, 0, 0, 200, 0, 2}, {8, 0, 0}, "settlements begin at 1"},
    {{BOTSKHELA_CORN, 0, 1000000, 200, 0, 1000002}, {8, 0, 0}, "prices end at 1,000,000"},
    {{BOTSKHELA_SOYBEAN_OIL, 0, 1000001, 200, 0, 1000000}, {8, 0, 0}, "so do settlements"},
    {{BOTSKHELA_CORN, 0, 6000, 200, 1, 6001}, {8, 0, 0}, "spot: an odd price"},
    {{BOTSKHELA_CORN, 0, 6000, 120, 0, 6000}, {13, 0, 0}, "below the floor"},
    {{BOTSKHELA_CORN, 0, 6000, 210, 0, 6000}, {13, 0, 0}, "off the step"},
    {{BOTSKHELA_SOYBEANS, 0, 10000, 360, 0, 10000}, {13, 0, 0}, "below the floor of Soybeans"},
    {{BOTSKHELA_CORN, 0, 6000, 2000040, 0, 6000}, {13, 0, 0}, "above 2,000,000"},
    {{BOTSKHELA_CORN, 0, 6000, 0, 0, 6000}, {13, 0, 0}, "no amount"},
    {{BOTSKHELA_CORN, 0, 6000, 210, 1, 6000}, {13, 0, 0}, "spot: off the step"},
    {{BOTSKHELA_CORN, 0, 6000, 210, 0, 6001}, {8, 0, 0}, "8 before 13"},
    {{BOTSKHELA_CORN, 0, 6001, 210, 1, 6000}, {8, 0, 0}, "8 before 13, spot"},
    {{8, 0, 0, 200, 0, 0}, {5, 0, 0}, "5 before 8"},
    {{BOTSKHELA_KC_WHEAT, 1, 5001, 1, 1, 0}, {5, 0, 0}, "5 before 8 and 13"},
};

int failed_vectors(int *total)
{
    const int count = (int)(sizeof VECTORS / sizeof VECTORS[0]);
    int failed = 0;

    for (int i = 0; i < count; i++) {
        const struct vector *vector = &VECTORS[i];
        const botskhela_span span = proved_span(&vector->call);

        if (is_same_span(&span, &vector->span))
            continue;
        failed++;
        printf("FAILED vector, %s:", vector->why);
        print_span("expected", &vector->span);
        print_span("and the proved calls say", &span);
        printf("\n");
    }
    printf("vectors: %d, %d differences\n", count, failed);
    *total += count;
    return failed;
}
