/* What sample records and mesh records share as files. */
#include "records.h"
#include "bridgeyarn.h"
#include "messages.h"
#include <string.h>

uint32_t word_at(const uint8_t *bytes, size_t place)
{
    uint32_t word;
    memcpy(&word, bytes + place, sizeof word);
    return word;
}

int looks_like_samples(const input *in)
{
    uint64_t n;
    if (in->length < BRIDGEYARN_RECORD_HEADER)
        return 0;
    n = word_at(in->bytes, 4);
    return word_at(in->bytes, 16) == BRIDGEYARN_RECORD_HEADER && n <= BRIDGEYARN_MOST_SIZE && word_at(in->bytes, 12) == BRIDGEYARN_SAMPLES(n);
}

int looks_like_mesh(const input *in)
{
    return in->length >= BRIDGEYARN_MESH_HEADER && word_at(in->bytes, 16) == BRIDGEYARN_MESH_HEADER
           && word_at(in->bytes, 24) == BRIDGEYARN_MESH_HEADER + 12u * word_at(in->bytes, 12);
}

/* One byte more than is needed is asked for, so that a longer stream is told from a whole record. */
int read_rest(input *in, uint64_t needed, int *is_whole, char found[FOUND])
{
    char text[GROUPED];
    int status = DONE, is_known = in->is_regular && in->whole >= in->length;
    uint64_t length = in->whole;
    if (!is_known || length == needed) {
        status = read_up_to(in, (size_t)needed + 1);
        length = in->length;
    }
    *is_whole = length == needed;
    snprintf(found, FOUND, "%s%s bytes", !is_known && length > needed ? "more than " : "", grouped(!is_known && length > needed ? needed : length, text));
    return status;
}
