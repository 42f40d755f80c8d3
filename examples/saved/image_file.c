#define _POSIX_C_SOURCE 200809L

#include "image_file.h"

#include <errno.h>
#include <fcntl.h>
#include <string.h>
#include <sys/stat.h>
#include <unistd.h>
#include <zlib.h>

#define LONGEST_PATH 4095

uint32_t image_crc(const botskhela_book *book)
{
    return (uint32_t)crc32(crc32(0, Z_NULL, 0), (const Bytef *)book, sizeof *book);
}

/* The name of a file in the same folder; -1 where it is too long. */
static int name_beside(const char *path, const char *ending, char name[LONGEST_PATH + 1])
{
    if (strlen(path) + strlen(ending) > LONGEST_PATH) {
        errno = ENAMETOOLONG;
        return -1;
    }
    strcpy(name, path);
    strcat(name, ending);
    return 0;
}

int image_claim(const char *path)
{
    struct flock whole = {.l_type = F_WRLCK, .l_whence = SEEK_SET};
    char name[LONGEST_PATH + 1];
    int lock;

    if (name_beside(path, ".lock", name) != 0)
        return -1;
    /* Never closed: the system lets go of the lock when the program ends, killed or not. */
    lock = open(name, O_WRONLY | O_CREAT, 0644);
    return lock < 0 ? -1 : fcntl(lock, F_SETLK, &whole);
}

/* A file is on the disk only after its fsync; without it a rename could outlive the bytes. */
static int write_through(FILE *file, const struct image *image)
{
    int is_written = fwrite(image, sizeof *image, 1, file) == 1 && fflush(file) == 0 && fsync(fileno(file)) == 0;

    return fclose(file) == 0 && is_written ? 0 : -1;
}

/* A rename is on the disk only after an fsync of the folder. */
static int sync_folder(const char *path)
{
    char name[LONGEST_PATH + 1];
    char *slash;
    int folder, is_synced;

    if (name_beside(path, "", name) != 0)
        return -1;
    slash = strrchr(name, '/');
    if (slash == NULL)
        strcpy(name, ".");
    else if (slash == name)
        strcpy(name, "/");
    else
        *slash = '\0';
    folder = open(name, O_RDONLY);
    if (folder < 0)
        return -1;
    is_synced = fsync(folder) == 0;
    return close(folder) == 0 && is_synced ? 0 : -1;
}

int image_save(const char *path, const botskhela_book *book)
{
    struct image image = {*book, image_crc(book)};
    char name[LONGEST_PATH + 1];
    FILE *file;

    if (name_beside(path, ".new", name) != 0)
        return -1;
    file = fopen(name, "wb");
    if (file == NULL || write_through(file, &image) != 0 || rename(name, path) != 0)
        return -1;
    return sync_folder(path);
}

/* One byte more than an image is asked for, so that a longer file shows. */
static enum image_state read_whole(FILE *file, struct image *image)
{
    size_t read = fread(image, 1, sizeof *image, file);

    if (read == sizeof *image && getc(file) == EOF && !ferror(file))
        return image->crc == image_crc(&image->book) ? IMAGE_WHOLE : IMAGE_DAMAGED;
    return ferror(file) ? IMAGE_UNREADABLE : IMAGE_DAMAGED;
}

enum image_state image_read(FILE *file, botskhela_book *book)
{
    struct image image;
    enum image_state state = read_whole(file, &image);

    if (state == IMAGE_WHOLE)
        *book = image.book;
    else
        memset(book, 0, sizeof *book);
    return state;
}

enum image_state image_load(const char *path, botskhela_book *book)
{
    FILE *file = fopen(path, "rb");
    enum image_state state;

    if (file == NULL) {
        memset(book, 0, sizeof *book);
        return errno == ENOENT ? IMAGE_MISSING : IMAGE_UNREADABLE;
    }
    state = image_read(file, book);
    fclose(file);
    return state;
}

/* A file that is open keeps its inode, so another file cannot have the same one, however fast the names change. */
int image_is_current(FILE *file, const char *path)
{
    struct stat open_one, named_one;

    return fstat(fileno(file), &open_one) == 0 && stat(path, &named_one) == 0 &&
           open_one.st_dev == named_one.st_dev && open_one.st_ino == named_one.st_ino;
}

const char *image_state_name(enum image_state state)
{
    switch (state) {
    case IMAGE_WHOLE:
        return "whole";
    case IMAGE_MISSING:
        return "missing";
    case IMAGE_UNREADABLE:
        return "unreadable";
    default:
        return "damaged or of another format";
    }
}
