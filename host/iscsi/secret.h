/* The user and the secret with which initiators log in by CHAP: a file of two
   lines that its owner alone may read. */
#ifndef RIDGE_SECRET_H
#define RIDGE_SECRET_H

enum { SECRET_USER_MOST = 255, SECRET_LEAST = 12, SECRET_MOST = 255 };

struct secret {
    char user[SECRET_USER_MOST + 1], word[SECRET_MOST + 1];
};

/* Gives 1, or 0 after it has said what is wrong, without the secret. */
int secret_read(const char *path, struct secret *secret);

#endif
