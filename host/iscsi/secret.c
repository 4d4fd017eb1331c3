/* The user and the secret for CHAP (secret.h). */
#define _GNU_SOURCE
#include "secret.h"

#include <errno.h>
#include <stdio.h>
#include <string.h>
#include <sys/stat.h>

#include "fail.h"

/* One line without its end; 0 where there is none, or it has a blank or is
   longer than the room for it. */
static int read_line(FILE *file, char *line, int room)
{
    if (fgets(line, room, file) == NULL)
        return 0;
    size_t length = strcspn(line, "\n");
    int whole = line[length] == '\n' || feof(file);
    line[length] = '\0';
    return whole && length > 0 && strcspn(line, " \t\r") == length;
}

static int read_lines(FILE *file, const char *path, struct secret *secret)
{
    struct stat about;
    if (fstat(fileno(file), &about) != 0)
        return fail(path, strerror(errno));
    if ((about.st_mode & (S_IRWXG | S_IRWXO)) != 0)
        return fail(path, "others than its owner may use it; chmod 600");
    if (!read_line(file, secret->user, sizeof secret->user) ||
        !read_line(file, secret->word, sizeof secret->word))
        return fail(path, "it is not a line with a user and one with a secret");
    return strlen(secret->word) >= SECRET_LEAST ||
           fail(path, "the secret has less than the 12 bytes that iSCSI wants");
}

int secret_read(const char *path, struct secret *secret)
{
    FILE *file = fopen(path, "re");
    if (file == NULL)
        return fail(path, strerror(errno));
    int whole = read_lines(file, path, secret);
    fclose(file);
    return whole;
}
