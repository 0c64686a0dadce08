/* A file, or standard input, that is read as far as its beginning asks for. */
#ifndef INPUT_H
#define INPUT_H

#include <stddef.h>
#include <stdint.h>
#include <stdio.h>

typedef struct {
    const char *name;  /* as messages have it                      */
    FILE *stream;
    uint64_t device, inode;
    int is_regular;
    uint64_t whole;    /* of a regular file: how many bytes it has */
    uint8_t *bytes;
    size_t length;     /* how many are read so far                 */
    size_t room;
} input;

/* Opens the file; the name - is standard input. */
int open_input(const char *name, input *in);

/* Reads on until there are so many bytes, or the file ends. */
int read_up_to(input *in, size_t length);

/* Whether the name leads to the file that is read, by whatever path or link. */
int is_same_file(const input *in, const char *name);

void close_input(input *in);

#endif
