/* Tries on a device of the store every call that would move data past SG_IO,
   and wants each to fail: on the descriptor, on its duplicates, and on the
   device opened again by other ways. Run it with the preload library in force
   and a server behind it:

     data_calls DEVICE FILE

   FILE is any plain file with some bytes, opened for reading and writing. */
#define _GNU_SOURCE
#include <errno.h>
#include <fcntl.h>
#include <linux/fs.h>
#include <scsi/sg.h>
#include <stdint.h>
#include <stdio.h>
#include <string.h>
#include <sys/ioctl.h>
#include <sys/mman.h>
#include <sys/sendfile.h>
#include <sys/socket.h>
#include <sys/syscall.h>
#include <sys/uio.h>
#include <unistd.h>

static int tried, passed_through;

/* What a call gave: 0 or more, or -1 with errno. A call that did not fail is
   what this program is here to find. */
static void want_failure(const char *where, const char *call, long long gave)
{
    tried++;
    if (gave == -1 && errno != 0)
        return;
    passed_through++;
    printf("%s: %s gave %lld where it must fail\n", where, call, gave);
}

#define MUST_FAIL(where, call) (errno = 0, want_failure(where, #call, (long long)(call)))

static char bytes[4096];
static struct iovec pieces[1] = {{.iov_base = bytes, .iov_len = sizeof bytes}};

static void try_reads_and_writes(const char *where, int device)
{
    MUST_FAIL(where, read(device, bytes, sizeof bytes));
    MUST_FAIL(where, write(device, bytes, sizeof bytes));
    MUST_FAIL(where, write(device, bytes, 0));
    MUST_FAIL(where, pread(device, bytes, sizeof bytes, 0));
    MUST_FAIL(where, pwrite(device, bytes, sizeof bytes, 0));
    MUST_FAIL(where, readv(device, pieces, 1));
    MUST_FAIL(where, writev(device, pieces, 1));
    MUST_FAIL(where, preadv(device, pieces, 1, 0));
    MUST_FAIL(where, pwritev(device, pieces, 1, 0));
    MUST_FAIL(where, preadv2(device, pieces, 1, 0, 0));
    MUST_FAIL(where, pwritev2(device, pieces, 1, 0, 0));
    MUST_FAIL(where, syscall(SYS_read, device, bytes, sizeof bytes));
    MUST_FAIL(where, syscall(SYS_write, device, bytes, sizeof bytes));
    MUST_FAIL(where, send(device, bytes, sizeof bytes, MSG_NOSIGNAL));
    MUST_FAIL(where, recv(device, bytes, sizeof bytes, 0));
}

static void try_copies(const char *where, int device, int file)
{
    int ends[2];
    lseek(file, 0, SEEK_SET);
    MUST_FAIL(where, sendfile(device, file, NULL, sizeof bytes));
    MUST_FAIL(where, sendfile(file, device, NULL, sizeof bytes));
    MUST_FAIL(where, copy_file_range(device, NULL, file, NULL, sizeof bytes, 0));
    MUST_FAIL(where, copy_file_range(file, NULL, device, NULL, sizeof bytes, 0));
    MUST_FAIL(where, ioctl(device, FICLONE, file));
    MUST_FAIL(where, ioctl(file, FICLONE, device));
    if (pipe(ends) != 0)
        return;
    MUST_FAIL(where, splice(device, NULL, ends[1], NULL, sizeof bytes, 0));
    if (write(ends[1], bytes, sizeof bytes) > 0)
        MUST_FAIL(where, splice(ends[0], NULL, device, NULL, sizeof bytes, 0));
    MUST_FAIL(where, tee(ends[0], device, sizeof bytes, 0));
    MUST_FAIL(where, vmsplice(device, pieces, 1, 0));
    close(ends[0]);
    close(ends[1]);
}

static void try_shapes(const char *where, int device)
{
    MUST_FAIL(where, (intptr_t)mmap(NULL, 4096, PROT_READ, MAP_SHARED, device, 0));
    MUST_FAIL(where, (intptr_t)mmap(NULL, 4096, PROT_READ | PROT_WRITE,
                                    MAP_PRIVATE, device, 0));
    MUST_FAIL(where, ftruncate(device, 0));
    MUST_FAIL(where, fallocate(device, 0, 0, 4096));
    MUST_FAIL(where, lseek(device, 512, SEEK_SET));
    MUST_FAIL(where, lseek(device, 0, SEEK_END));
    MUST_FAIL(where, fsync(device));
    MUST_FAIL(where, fdatasync(device));
    MUST_FAIL(where, readahead(device, 0, 4096));
    errno = posix_fallocate(device, 0, 4096);
    want_failure(where, "posix_fallocate", errno != 0 ? -1 : 0);
}

static void try_all(const char *where, int device, int file)
{
    try_reads_and_writes(where, device);
    try_copies(where, device, file);
    try_shapes(where, device);
}

static void try_ways_of_opening(const char *name, int device)
{
    char again[64];
    snprintf(again, sizeof again, "/proc/self/fd/%d", device);
    MUST_FAIL("by /proc", open(again, O_RDONLY));
    MUST_FAIL("by /proc", open(again, O_WRONLY));
    MUST_FAIL("by /proc", open(again, O_RDWR | O_CREAT | O_TRUNC, 0600));
    MUST_FAIL("to make", open(name, O_WRONLY | O_CREAT, 0600));
    MUST_FAIL("to empty", open(name, O_WRONLY | O_TRUNC));
    MUST_FAIL("to make", openat(AT_FDCWD, name, O_RDWR | O_CREAT, 0600));
    MUST_FAIL("to make", creat(name, 0600));
    MUST_FAIL("as a stream", fopen(name, "r") == NULL ? -1 : 0);
    MUST_FAIL("as a stream", fopen(name, "w") == NULL ? -1 : 0);
    MUST_FAIL("as a stream", freopen(name, "r", stdin) == NULL ? -1 : 0);
    MUST_FAIL("another name", open("/dev/ridge", O_WRONLY | O_CREAT, 0600));
    MUST_FAIL("another name", open("/dev/ridge1x", O_WRONLY | O_CREAT, 0600));
    MUST_FAIL("another name", open("/dev/ridge0", O_WRONLY | O_CREAT, 0600));
    MUST_FAIL("another name", fopen("/dev/ridge0", "w") == NULL ? -1 : 0);
}

/* Gives the status of a TEST UNIT READY, or -1: what the device is for goes on
   working, and only while it is open. */
static int test_unit_ready(int device)
{
    unsigned char cdb[6] = {0};
    struct sg_io_hdr header = {.interface_id = 'S', .cmdp = cdb,
                               .cmd_len = sizeof cdb,
                               .dxfer_direction = SG_DXFER_NONE};
    return ioctl(device, SG_IO, &header) != 0 ? -1 : header.status;
}

static void try_duplicates(int device, int file)
{
    int copied = dup(device), moved = dup2(device, 200);
    int third = fcntl(device, F_DUPFD, 100);
    try_all("dup", copied, file);
    try_all("dup2", moved, file);
    try_all("F_DUPFD", third, file);
    close(copied);
    close(moved);
    close(third);
}

int main(int count, char **words)
{
    int device = count == 3 ? open(words[1], O_RDWR | O_NONBLOCK) : -1;
    int file = count == 3 ? open(words[2], O_RDWR) : -1;
    if (device < 0 || file < 0) {
        fprintf(stderr, "usage: data_calls DEVICE FILE: %s\n", strerror(errno));
        return 2;
    }
    try_all("the device", device, file);
    try_duplicates(device, file);
    try_ways_of_opening(words[1], device);
    if (test_unit_ready(device) != 0) {
        printf("SG_IO no longer works on the device\n");
        passed_through++;
    }
    /* Another file that comes to the descriptor's number is that file. */
    if (dup2(file, device) == device)
        MUST_FAIL("replaced by dup2", test_unit_ready(device));
    printf("%d calls that would move data, %d passed through\n", tried, passed_through);
    return passed_through == 0 ? 0 : 1;
}
