/* A sample record out of a file. */
#include "bridgeyarn.h"
#include "messages.h"
#include "records.h"

static int refuse_header(const input *in, bridgeyarn_record_answer answer)
{
    const uint8_t *bytes = in->bytes;
    char found[GROUPED], wanted[GROUPED];
    uint32_t size = in->length >= 8 ? word_at(bytes, 4) : 0;
    if (looks_like_mesh(in))
        return refused(answer.cause, answer.place, "this is a mesh record (size %u, V = %u, I = %u), which the workshop reads; a sample record is wanted", size,
                       word_at(bytes, 12), word_at(bytes, 20));
    if (answer.cause == BRIDGEYARN_BAD_SIZE)
        return refused(answer.cause, answer.place, "size %u: %u to %u are taken", size, BRIDGEYARN_LEAST_SIZE, BRIDGEYARN_MOST_SIZE);
    if (answer.cause == BRIDGEYARN_BAD_NUMBERING)
        return refused(answer.cause, answer.place, "numbering %u: 0 (crate) and 1 (joined) are taken", word_at(bytes, 8));
    if (answer.cause == BRIDGEYARN_BAD_COUNT)
        return refused(answer.cause, answer.place, "this record counts %s samples; size %u needs %s", grouped(word_at(bytes, 12), found), size,
                       grouped(BRIDGEYARN_SAMPLES(size), wanted));
    if (in->length < BRIDGEYARN_RECORD_HEADER)
        return refused(answer.cause, answer.place, "this file has %s bytes; the header of a sample record has %u", grouped(in->length, found),
                       BRIDGEYARN_RECORD_HEADER);
    if (answer.place == 0)
        return refused(answer.cause, answer.place, "this is no sample record: it begins with the word %s, and version 1 is wanted",
                       grouped(word_at(bytes, 0), found));
    return refused(answer.cause, answer.place, "the samples of this record begin at byte %s; byte %u is wanted", grouped(word_at(bytes, 16), found),
                   BRIDGEYARN_RECORD_HEADER);
}

/* Of the header alone the library says first what is wrong with it, and last that the samples are missing: then it is good. */
int take_samples(input *in, sample_grid *grid)
{
    bridgeyarn_record_answer answer;
    char found[FOUND], wanted[GROUPED];
    int is_whole, status = read_up_to(in, BRIDGEYARN_MESH_HEADER);
    uint64_t needed;
    if (status != DONE)
        return status;
    answer = bridgeyarn_record(in->bytes, in->length < BRIDGEYARN_RECORD_HEADER ? in->length : BRIDGEYARN_RECORD_HEADER);
    if (answer.cause != BRIDGEYARN_BAD_RECORD || answer.place != BRIDGEYARN_RECORD_HEADER)
        return refuse_header(in, answer);
    grid->sample_count = word_at(in->bytes, 12);
    needed = BRIDGEYARN_RECORD_HEADER + 4 * (uint64_t)grid->sample_count;
    status = read_rest(in, needed, &is_whole, found);
    if (status != DONE)
        return status;
    if (!is_whole)
        return refused(answer.cause, answer.place, "this record has %s; size %u needs %s", found, word_at(in->bytes, 4), grouped(needed, wanted));
    answer = bridgeyarn_record(in->bytes, in->length);
    if (answer.cause != BRIDGEYARN_DONE)
        return refused(answer.cause, answer.place, "this record has changed while it was read");
    grid->size = answer.size;
    grid->numbering = answer.numbering;
    /* memory from malloc is aligned for anything, and the header's length is a multiple of four */
    grid->samples = (const float *)(const void *)(in->bytes + BRIDGEYARN_RECORD_HEADER);
    return DONE;
}
