/* Files read as far as they are asked for, in memory that grows with what has come. */
#define _XOPEN_SOURCE 700
#include "input.h"
#include "messages.h"
#include <stdlib.h>
#include <string.h>
#include <sys/stat.h>
#include <unistd.h>

int open_input(const char *name, input *in)
{
    struct stat at;
    off_t begin;
    memset(in, 0, sizeof *in);
    in->name = strcmp(name, "-") == 0 ? "standard input" : name;
    in->stream = strcmp(name, "-") == 0 ? stdin : fopen(name, "rb");
    if (in->stream == NULL)
        return cannot("open", name);
    if (fstat(fileno(in->stream), &at) != 0)
        return cannot("read", in->name);
    in->device = at.st_dev;
    in->inode = at.st_ino;
    begin = lseek(fileno(in->stream), 0, SEEK_CUR);
    in->is_regular = S_ISREG(at.st_mode) && begin >= 0 && begin <= at.st_size;
    in->whole = in->is_regular ? (uint64_t)(at.st_size - begin) : 0;
    return DONE;
}

/* Room for `length` bytes at once where the file is known to have them, else for twice as many as have come: a header that promises much costs
 * no memory until much has come. */
static int make_room(input *in, size_t length)
{
    size_t room = in->is_regular && in->whole + 1 >= length ? length : 2 * in->room + 65536;
    uint8_t *larger = realloc(in->bytes, room < length ? room : length);
    if (larger == NULL)
        return cannot("hold", in->name);
    in->bytes = larger;
    in->room = room < length ? room : length;
    return DONE;
}

int read_up_to(input *in, size_t length)
{
    size_t got = 1;
    while (in->length < length && got > 0) {
        if (in->length == in->room && make_room(in, length) != DONE)
            return SYSTEM;
        got = fread(in->bytes + in->length, 1, in->room - in->length, in->stream);
        in->length += got;
        progress("reading", in->length, length);
    }
    progress("reading", length, length);
    return ferror(in->stream) ? cannot("read", in->name) : DONE;
}

int is_same_file(const input *in, const char *name)
{
    struct stat at;
    return stat(name, &at) == 0 && at.st_dev == in->device && at.st_ino == in->inode;
}

void close_input(input *in)
{
    if (in->stream != NULL && in->stream != stdin)
        fclose(in->stream);
    free(in->bytes);
    in->stream = NULL;
    in->bytes = NULL;
}
