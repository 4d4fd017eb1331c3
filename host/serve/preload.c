/* A preload library that lets unmodified SCSI tools (sg3-utils) use the store.

     LD_PRELOAD=libridge_sg.so RIDGE_SOCKET=path sg_inq /dev/ridge/3

   (tools/scsi sets both.) A name /dev/ridge/N, N decimal, is a SCSI generic
   device as nexus N sees the store. Nothing of that name exists, and no folder
   /dev/ridge either: a tool that runs without this library finds no device and
   can make no file of its name, not even as root. /dev/ridgeN is another name
   of the same, and every other name that begins with /dev/ridge is refused, so
   that a slip of the hand makes no file either. All other files go their
   ordinary way.

   A device serves SG_IO (sg_io.c) and nothing else. Its descriptor is one of
   the server's socket as a name (O_PATH), with which the kernel moves no data:
   reading, writing, mapping, truncating and the like fail with EBADF, through
   duplicates too, and whoever opens it again by /proc is refused. Opening it so
   as to make or empty a file, or as a stream of the C library, fails with
   EOPNOTSUPP.

   RIDGE_SG_VERSION is the driver version the device names, 30536 if not set;
   with 40045 the tools use the form of version 4. */
#define _GNU_SOURCE
#include <dlfcn.h>
#include <errno.h>
#include <fcntl.h>
#include <stdarg.h>
#include <stdint.h>
#include <stdio.h>
#include <stdlib.h>
#include <string.h>
#include <sys/stat.h>
#include <sys/sysmacros.h>
#include <unistd.h>

#include "sg_io.h"
#include "wire.h"

#define DEVICE_PREFIX "/dev/ridge"
#define PUBLIC __attribute__((visibility("default")))

enum { FILES_MOST = 1024, DIGITS_MOST = 9, SG_MAJOR = 21 };

enum name_kind { NAME_OTHER, NAME_DEVICE, NAME_REFUSED };

/* Each open device: its nexus plus 1 (0 for every other file) and the file that
   its descriptor names, by which a descriptor of another file is told apart
   that has come to its number unseen. */
static struct device {
    uint32_t nexus_plus_one;
    dev_t place;
    ino_t number;
} devices[FILES_MOST];

/* ---- names and files ---- */

static enum name_kind kind_of_name(const char *name, uint32_t *nexus)
{
    size_t prefix = strlen(DEVICE_PREFIX);
    if (name == NULL || strncmp(name, DEVICE_PREFIX, prefix) != 0)
        return NAME_OTHER;
    const char *digits = name + prefix;
    if (*digits == '/')
        digits++;
    size_t count = strspn(digits, "0123456789");
    if (count == 0 || count > DIGITS_MOST || digits[count] != '\0')
        return NAME_REFUSED;
    *nexus = (uint32_t)strtoul(digits, NULL, 10);
    return NAME_DEVICE;
}

static int refuse(int error)
{
    errno = error;
    return -1;
}

static int is_ours(int file)
{
    struct stat about;
    if (file < 0 || file >= FILES_MOST || devices[file].nexus_plus_one == 0)
        return 0;
    int before = errno;
    int same = fstatat(file, "", &about, AT_EMPTY_PATH) == 0 &&
               about.st_dev == devices[file].place &&
               about.st_ino == devices[file].number;
    errno = before;
    return same;
}

static int pass_open(int directory, const char *name, int flags, mode_t mode)
{
    int (*next)(int, const char *, int, ...);
    *(void **)&next = dlsym(RTLD_NEXT, "openat64");
    return next(directory, name, flags, mode);
}

static int remember(int file, uint32_t nexus)
{
    struct stat about;
    if (file >= FILES_MOST || fstatat(file, "", &about, AT_EMPTY_PATH) != 0) {
        close(file);
        return refuse(EMFILE);
    }
    devices[file].place = about.st_dev;
    devices[file].number = about.st_ino;
    devices[file].nexus_plus_one = nexus + 1;
    return file;
}

static int open_device(uint32_t nexus, int flags)
{
    if ((flags & O_DIRECTORY) != 0)
        return refuse(ENOTDIR);
    if ((flags & (O_CREAT | O_TRUNC)) != 0)
        return refuse(EOPNOTSUPP);
    if (sg_io_try_server() != 0)
        return -1;
    int file = pass_open(AT_FDCWD, getenv(WIRE_SOCKET_VARIABLE),
                         O_PATH | O_CLOEXEC, 0);
    return file < 0 ? -1 : remember(file, nexus);
}

static int open_any(int directory, const char *name, int flags, mode_t mode)
{
    uint32_t nexus;
    switch (kind_of_name(name, &nexus)) {
    case NAME_DEVICE:
        return open_device(nexus, flags);
    case NAME_REFUSED:
        return refuse(ENXIO);
    default:
        return pass_open(directory, name, flags, mode);
    }
}

static FILE *open_stream(const char *call, const char *name, const char *mode,
                         FILE *stream)
{
    uint32_t nexus;
    if (kind_of_name(name, &nexus) != NAME_OTHER) {
        errno = EOPNOTSUPP;
        return NULL;
    }
    if (stream != NULL) {
        FILE *(*again)(const char *, const char *, FILE *);
        *(void **)&again = dlsym(RTLD_NEXT, call);
        return again(name, mode, stream);
    }
    FILE *(*next)(const char *, const char *);
    *(void **)&next = dlsym(RTLD_NEXT, call);
    return next(name, mode);
}

static int describe_device(struct stat *about, uint32_t nexus)
{
    memset(about, 0, sizeof *about);
    about->st_mode = S_IFCHR | S_IRUSR | S_IWUSR;
    about->st_nlink = 1;
    about->st_rdev = makedev(SG_MAJOR, nexus);
    about->st_blksize = 4096;
    return 0;
}

static int describe_name(const char *name, struct stat *about, int flags)
{
    uint32_t nexus;
    if (kind_of_name(name, &nexus) == NAME_DEVICE)
        return describe_device(about, nexus);
    return fstatat(AT_FDCWD, name, about, flags);
}

static int describe_file(int file, struct stat *about)
{
    if (is_ours(file))
        return describe_device(about, devices[file].nexus_plus_one - 1);
    return fstatat(file, "", about, AT_EMPTY_PATH);
}

/* ---- the C library's names, ours first ---- */

static mode_t mode_argument(int flags, va_list rest)
{
    int has_mode = (flags & O_CREAT) != 0 || (flags & O_TMPFILE) == O_TMPFILE;
    return has_mode ? va_arg(rest, mode_t) : 0;
}

#define OPEN_BODY(directory)                                                   \
    va_list rest;                                                              \
    va_start(rest, flags);                                                     \
    mode_t mode = mode_argument(flags, rest);                                  \
    va_end(rest);                                                              \
    return open_any(directory, name, flags, mode)

PUBLIC int open(const char *name, int flags, ...) { OPEN_BODY(AT_FDCWD); }
PUBLIC int open64(const char *name, int flags, ...) { OPEN_BODY(AT_FDCWD); }
PUBLIC int openat(int at, const char *name, int flags, ...) { OPEN_BODY(at); }
PUBLIC int openat64(int at, const char *name, int flags, ...) { OPEN_BODY(at); }

/* What a tool built with checked functions calls where it gives no mode. */
PUBLIC int __open_2(const char *name, int flags)
{
    return open_any(AT_FDCWD, name, flags, 0);
}

PUBLIC int __open64_2(const char *name, int flags)
{
    return open_any(AT_FDCWD, name, flags, 0);
}

PUBLIC int __openat_2(int at, const char *name, int flags)
{
    return open_any(at, name, flags, 0);
}

PUBLIC int __openat64_2(int at, const char *name, int flags)
{
    return open_any(at, name, flags, 0);
}

PUBLIC int creat(const char *name, mode_t mode)
{
    return open_any(AT_FDCWD, name, O_CREAT | O_WRONLY | O_TRUNC, mode);
}

PUBLIC int creat64(const char *name, mode_t mode)
{
    return open_any(AT_FDCWD, name, O_CREAT | O_WRONLY | O_TRUNC, mode);
}

PUBLIC FILE *fopen(const char *restrict name, const char *restrict mode)
{
    return open_stream("fopen", name, mode, NULL);
}

PUBLIC FILE *fopen64(const char *restrict name, const char *restrict mode)
{
    return open_stream("fopen64", name, mode, NULL);
}

PUBLIC FILE *freopen(const char *restrict name, const char *restrict mode,
                     FILE *restrict stream)
{
    return open_stream("freopen", name, mode, stream);
}

PUBLIC FILE *freopen64(const char *restrict name, const char *restrict mode,
                       FILE *restrict stream)
{
    return open_stream("freopen64", name, mode, stream);
}

PUBLIC int stat(const char *restrict name, struct stat *restrict about)
{
    return describe_name(name, about, 0);
}

PUBLIC int lstat(const char *restrict name, struct stat *restrict about)
{
    return describe_name(name, about, AT_SYMLINK_NOFOLLOW);
}

PUBLIC int fstat(int file, struct stat *about)
{
    return describe_file(file, about);
}

/* On the 64-bit machines served here the two records are the same. */
_Static_assert(sizeof(struct stat) == sizeof(struct stat64), "one record");

PUBLIC int stat64(const char *restrict name, struct stat64 *restrict about)
{
    return describe_name(name, (struct stat *)about, 0);
}

PUBLIC int lstat64(const char *restrict name, struct stat64 *restrict about)
{
    return describe_name(name, (struct stat *)about, AT_SYMLINK_NOFOLLOW);
}

PUBLIC int fstat64(int file, struct stat64 *about)
{
    return describe_file(file, (struct stat *)about);
}

PUBLIC int close(int file)
{
    int (*next)(int);
    *(void **)&next = dlsym(RTLD_NEXT, "close");
    if (file >= 0 && file < FILES_MOST)
        devices[file].nexus_plus_one = 0;
    return next(file);
}

PUBLIC int ioctl(int file, unsigned long request, ...)
{
    int (*next)(int, unsigned long, ...);
    va_list rest;
    va_start(rest, request);
    void *argument = va_arg(rest, void *);
    va_end(rest);
    if (is_ours(file))
        return sg_io_control(devices[file].nexus_plus_one - 1, request, argument);
    *(void **)&next = dlsym(RTLD_NEXT, "ioctl");
    return next(file, request, argument);
}
