/*
 * Every bit of a saved book changed in turn: flips FILE
 *
 * Each file so damaged has to be refused, and some of the damaged books have to be sound ones: else no CRC were needed.
 */
#define _POSIX_C_SOURCE 200809L

#include <stdio.h>

#include "botskhela.h"
#include "image_file.h"

#define JULY 24294

struct flips {
    unsigned long made, sound, taken;
};

static int is_taken(struct image *image)
{
    FILE *file = fmemopen(image, sizeof *image, "rb");
    botskhela_book book;
    int taken;

    /* A file that cannot be looked at counts against the test. */
    if (file == NULL)
        return 1;
    taken = image_read(file, &book) != IMAGE_DAMAGED;
    fclose(file);
    return taken;
}

static int is_sound(const botskhela_book *book)
{
    return botskhela_check(book, BOTSKHELA_CORN, BOTSKHELA_STANDARD, JULY, 3620) != BOTSKHELA_UNSOUND;
}

static void flip(struct image *image, size_t bit, struct flips *flips)
{
    unsigned char *byte = (unsigned char *)image + bit / 8;

    *byte ^= (unsigned char)(1u << bit % 8);
    flips->made++;
    flips->sound += is_sound(&image->book);
    flips->taken += is_taken(image);
    *byte ^= (unsigned char)(1u << bit % 8);
}

int main(int argc, char **argv)
{
    static struct image image;
    struct flips flips = {0, 0, 0};

    if (argc != 2 || image_load(argv[1], &image.book) != IMAGE_WHOLE)
        return 2;
    image.crc = image_crc(&image.book);
    for (size_t bit = 0; bit < 8 * sizeof image; bit++)
        flip(&image, bit, &flips);
    printf("%lu bits: with %lu of them the book is sound, %lu are taken for whole\n", flips.made, flips.sound,
           flips.taken);
    return flips.taken != 0 || flips.sound == 0;
}
