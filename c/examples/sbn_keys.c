/*
 * sbn_keys.c: makes the pair of keys of a process that sbn_zmq joins to others.
 *
 *     sbn_keys FILE      writes the secret key to FILE, and prints the public one
 *
 * FILE mustn't be there yet. Nobody but its owner may open it.
 */
#include <errno.h>
#include <fcntl.h>
#include <stdio.h>
#include <string.h>
#include <unistd.h>
#include <zmq.h>

#define KEY_TEXT 41 /* a key as Z85, with its zero byte */

/* Writes a line into a new file; whether all of it is on the disk. */
static int write_line(const char *file, const char *line)
{
    char text[KEY_TEXT + 1];
    int length = snprintf(text, sizeof text, "%s\n", line);
    int at = open(file, O_WRONLY | O_CREAT | O_EXCL | O_CLOEXEC, 0600);
    if (at < 0)
        return 0;
    int is_written = write(at, text, (size_t)length) == length && fsync(at) == 0;
    return close(at) == 0 && is_written;
}

int main(int argc, char **argv)
{
    char public[KEY_TEXT], secret[KEY_TEXT];
    if (argc != 2) {
        fprintf(stderr, "usage: sbn_keys FILE\n");
        return 2;
    }
    if (zmq_curve_keypair(public, secret) != 0) {
        fprintf(stderr, "sbn_keys: %s\n", zmq_strerror(zmq_errno()));
        return 1;
    }
    if (!write_line(argv[1], secret)) {
        fprintf(stderr, "sbn_keys: %s: %s\n", argv[1], strerror(errno));
        return 1;
    }
    return printf("%s\n", public) > 0 && fflush(stdout) == 0 ? 0 : 1;
}
