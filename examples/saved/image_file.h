/*
 * A book in a file: its image, and behind it the CRC-32 of the image, so that the two are replaced together.
 *
 * The CRC says that the bytes are those that were saved. That they are a sound book says less: see botskhela.h.
 * Needs POSIX and zlib.
 */
#ifndef IMAGE_FILE_H
#define IMAGE_FILE_H

#include <stdint.h>
#include <stdio.h>

#include "botskhela.h"

/* What the file holds, byte for byte, for machines of the same byte order. */
struct image {
    botskhela_book book;
    uint32_t crc;
};

enum image_state {
    IMAGE_WHOLE,
    IMAGE_MISSING,    /* there is no such file */
    IMAGE_UNREADABLE, /* errno says why */
    IMAGE_DAMAGED     /* another length, or another CRC */
};

/* The CRC that belongs to a book. */
uint32_t image_crc(const botskhela_book *book);

/*
 * Claims the name for one writer, until the program ends, however it ends. Returns 0, or -1 where it cannot or where
 * another writer has it; errno says which.
 */
int image_claim(const char *path);

/*
 * Saves a book under the name: whoever opens the name finds the old file or the new one, whole, at every moment and after a
 * failure of power. Returns 0 once the new one is on the disk, or -1, and errno says why. For the one writer.
 */
int image_save(const char *path, const botskhela_book *book);

/* Reads an open file. Where it is not whole the book becomes zeros, which hold no book. */
enum image_state image_read(FILE *file, botskhela_book *book);

/* The same of the file that stands under the name now. */
enum image_state image_load(const char *path, botskhela_book *book);

/* Whether an open file is the one that stands under the name now. */
int image_is_current(FILE *file, const char *path);

/* The state in words. */
const char *image_state_name(enum image_state state);

#endif
