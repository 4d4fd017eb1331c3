/* Images: reading with every test, and replacing so that no moment has less
   than a whole one (image.h). */
#define _GNU_SOURCE
#include "image.h"

#include <errno.h>
#include <fcntl.h>
#include <stdarg.h>
#include <stdio.h>
#include <string.h>
#include <sys/stat.h>
#include <unistd.h>

#include "numbers.h"

enum {
    FORMAT_VERSION = 1,
    HEAD_BYTES = 24,
    SUM_BYTES = 8,
    IMAGE_BYTES_MOST = HEAD_BYTES + STORE_BYTES_MOST + SUM_BYTES
};

static const uint8_t magic[8] = {'R', 'I', 'D', 'G', 'E', 'I', 'M', 'G'};

static uint8_t bytes[IMAGE_BYTES_MOST + 1];

__attribute__((format(printf, 2, 3)))
static int because(struct image *image, const char *form, ...)
{
    va_list rest;
    va_start(rest, form);
    vsnprintf(image->reason, sizeof image->reason, form, rest);
    va_end(rest);
    return 0;
}

/* ---- the checksum ---- */

static void fill_table(uint64_t *table)
{
    for (uint64_t byte = 0; byte < 256; byte++) {
        uint64_t rest = byte;
        for (int bit = 0; bit < 8; bit++)
            rest = rest >> 1 ^ (rest & 1 ? UINT64_C(0xC96C5795D7870F42) : 0);
        table[byte] = rest;
    }
}

static uint64_t checksum(const uint8_t *at, size_t count)
{
    static uint64_t table[256];
    uint64_t sum = ~UINT64_C(0);
    if (table[1] == 0)
        fill_table(table);
    for (size_t byte = 0; byte < count; byte++)
        sum = sum >> 8 ^ table[(sum ^ at[byte]) & 0xFF];
    return ~sum;
}

/* ---- taking hold ---- */

/* Splits a path into a directory, opened, and a name in it. */
static int open_directory(struct image *image, const char *path)
{
    char folder[PATH_MAX];
    const char *slash = strrchr(path, '/');
    const char *name = slash == NULL ? path : slash + 1;
    size_t length = slash == NULL ? 0 : (size_t)(slash - path) + 1;
    if (name[0] == '\0' || length >= sizeof folder)
        return because(image, "the name is empty or too long");
    if (strlen(name) + sizeof ".lock" > sizeof image->name)
        return because(image, "%s", strerror(ENAMETOOLONG));
    memcpy(folder, path, length);
    strcpy(folder + length, length == 0 ? "." : "");
    strcpy(image->name, name);
    strcpy(image->next, name);
    strcat(image->next, ".new");
    image->directory = open(folder, O_RDONLY | O_DIRECTORY | O_CLOEXEC);
    if (image->directory < 0)
        return because(image, "its folder: %s", strerror(errno));
    return 1;
}

int image_hold(struct image *image, const char *path)
{
    memset(image, 0, sizeof *image);
    if (!open_directory(image, path))
        return 0;
    enum lock_outcome outcome =
        lock_take(&image->lock, image->directory, image->name);
    if (outcome == LOCK_TAKEN) {
        /* What a killed holder was writing was never an image. */
        unlinkat(image->directory, image->next, 0);
        return 1;
    }
    if (outcome == LOCK_HELD_BY_ANOTHER)
        because(image, "another server holds it");
    else
        because(image, "its lock %s: %s", image->lock.name, strerror(errno));
    close(image->directory);
    return 0;
}

void image_let_go(struct image *image)
{
    lock_let_go(&image->lock);
    close(image->directory);
}

/* ---- reading ---- */

static int read_all(int file, size_t most, size_t *count)
{
    *count = 0;
    while (*count < most) {
        ssize_t got = read(file, bytes + *count, most - *count);
        if (got < 0 && errno == EINTR)
            continue;
        if (got < 0)
            return 0;
        if (got == 0)
            return 1;
        *count += (size_t)got;
    }
    return 1;
}

/* The tests go from the coarse to the fine, so that the first that fails is
   the best reason. */
static int check(struct image *image, size_t count, struct store *store)
{
    if (count < HEAD_BYTES + SUM_BYTES)
        return because(image, "it is cut short: %zu bytes hold no image", count);
    if (memcmp(bytes, magic, sizeof magic) != 0)
        return because(image, "it is no image of a store");
    if (number_at(bytes + 8, 4) != FORMAT_VERSION)
        return because(image, "its format is version %llu; this program knows %d",
                       (unsigned long long)number_at(bytes + 8, 4), FORMAT_VERSION);
    uint64_t inside = number_at(bytes + 16, 8);
    if (inside != count - HEAD_BYTES - SUM_BYTES)
        return because(image, "its length is wrong: it should hold %llu bytes of "
                       "a store and holds %zu", (unsigned long long)inside,
                       count - HEAD_BYTES - SUM_BYTES);
    if (number_at(bytes + count - SUM_BYTES, 8) != checksum(bytes, count - SUM_BYTES))
        return because(image, "it is damaged: its checksum is wrong");
    const char *wrong = store_unpack(store, (uint32_t)number_at(bytes + 12, 4),
                                     bytes + HEAD_BYTES, (size_t)inside);
    return wrong == NULL ? 1 : because(image, "%s", wrong);
}

static int is_plain(struct image *image, int file)
{
    struct stat about;
    if (fstat(file, &about) != 0)
        return because(image, "%s", strerror(errno));
    return S_ISREG(about.st_mode) ? 1 : because(image, "it is no plain file");
}

static enum image_outcome load(struct image *image, struct store *store)
{
    size_t count = 0;
    int file = openat(image->directory, image->name,
                      O_RDONLY | O_CLOEXEC | O_NOFOLLOW | O_NONBLOCK);
    if (file < 0 && errno == ENOENT)
        return IMAGE_ABSENT;
    if (file < 0) {
        because(image, "%s", errno == ELOOP ? "it is a link: name the file itself"
                                            : strerror(errno));
        return IMAGE_FAILED;
    }
    int good = is_plain(image, file);
    if (good && !read_all(file, sizeof bytes, &count))
        good = because(image, "%s", strerror(errno));
    close(file);
    return good && check(image, count, store) ? IMAGE_DONE : IMAGE_FAILED;
}

/* The last server may have been killed between giving the image its name and
   syncing the folder. What is served from here on must not be lost again. */
enum image_outcome image_load(struct image *image, struct store *store)
{
    enum image_outcome outcome = load(image, store);
    if (outcome == IMAGE_DONE && fsync(image->directory) != 0) {
        because(image, "its folder cannot be synced: %s", strerror(errno));
        return IMAGE_FAILED;
    }
    return outcome;
}

enum image_outcome image_read(struct image *image, const char *path,
                              struct store *store)
{
    memset(image, 0, sizeof *image);
    if (!open_directory(image, path))
        return IMAGE_FAILED;
    enum image_outcome outcome = load(image, store);
    close(image->directory);
    return outcome;
}

/* ---- replacing ---- */

static size_t lay_out(const struct store *store)
{
    size_t inside = store_pack(store, bytes + HEAD_BYTES);
    memcpy(bytes, magic, sizeof magic);
    put_number(bytes + 8, FORMAT_VERSION, 4);
    put_number(bytes + 12, STORE_LAYOUT, 4);
    put_number(bytes + 16, inside, 8);
    size_t before = HEAD_BYTES + inside;
    put_number(bytes + before, checksum(bytes, before), SUM_BYTES);
    return before + SUM_BYTES;
}

static int write_all(int file, size_t count)
{
    for (size_t done = 0; done < count;) {
        ssize_t put = write(file, bytes + done, count - done);
        if (put < 0 && errno == EINTR)
            continue;
        if (put <= 0)
            return 0;
        done += (size_t)put;
    }
    return 1;
}

/* A new image keeps the owner and the rights of the one whose place it takes. */
static int dress(const struct image *image, int file)
{
    struct stat about;
    if (fstatat(image->directory, image->name, &about, AT_SYMLINK_NOFOLLOW) != 0)
        return errno == ENOENT;
    return fchown(file, about.st_uid, about.st_gid) == 0 &&
           fchmod(file, about.st_mode & 0777) == 0;
}

static int write_next(const struct image *image, size_t count)
{
    int file = openat(image->directory, image->next,
                      O_WRONLY | O_CREAT | O_TRUNC | O_CLOEXEC | O_NOFOLLOW, 0600);
    if (file < 0)
        return 0;
    int good = write_all(file, count) && dress(image, file) && fsync(file) == 0;
    int why = errno;
    close(file);
    errno = why;
    return good;
}

int image_replace(struct image *image, const struct store *store)
{
    size_t count = lay_out(store);
    if (!write_next(image, count)) {
        because(image, "%s cannot be written: %s", image->next, strerror(errno));
        unlinkat(image->directory, image->next, 0);
        return 0;
    }
    if (renameat(image->directory, image->next, image->directory, image->name) != 0)
        return because(image, "it cannot be replaced: %s", strerror(errno));
    if (fsync(image->directory) != 0)
        return because(image, "its folder cannot be synced: %s", strerror(errno));
    return 1;
}
