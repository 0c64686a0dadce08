/* A mesh record out of a file. */
#include "bridgeyarn.h"
#include "messages.h"
#include "records.h"
#include <stdlib.h>
#include <string.h>

static uint64_t indices_begin(const input *in)
{
    return BRIDGEYARN_MESH_HEADER + 12 * (uint64_t)word_at(in->bytes, 12);
}

static int refuse_header(const input *in, bridgeyarn_read_answer answer)
{
    const uint8_t *bytes = in->bytes;
    char found[GROUPED], wanted[GROUPED];
    uint32_t size = in->length >= 8 ? word_at(bytes, 4) : 0;
    if (looks_like_samples(in))
        return refused(answer.cause, answer.place, "this is a sample record (size %u), which the planner reads; a mesh record is wanted", size);
    if (answer.cause == BRIDGEYARN_BAD_SIZE)
        return refused(answer.cause, answer.place, "size %u: %u to %u are taken", size, BRIDGEYARN_LEAST_SIZE, BRIDGEYARN_MOST_SIZE);
    if (answer.cause == BRIDGEYARN_BAD_NUMBERING)
        return refused(answer.cause, answer.place, "numbering %u: 0 (crate) and 1 (joined) are taken", word_at(bytes, 8));
    if (in->length < BRIDGEYARN_MESH_HEADER)
        return refused(answer.cause, answer.place, "this file has %s bytes; the header of a mesh record has %u", grouped(in->length, found),
                       BRIDGEYARN_MESH_HEADER);
    if (answer.place == 0)
        return refused(answer.cause, answer.place, "this is no mesh record: it begins with the word %s, and version %u is wanted",
                       grouped(word_at(bytes, 0), found), BRIDGEYARN_MESH_VERSION);
    if (answer.place == 16)
        return refused(answer.cause, answer.place, "the vertices of this record begin at byte %s; byte %u is wanted", grouped(word_at(bytes, 16), found),
                       BRIDGEYARN_MESH_HEADER);
    if (answer.place == 20)
        return refused(answer.cause, answer.place, "this record counts %s indices; a multiple of three is wanted", grouped(word_at(bytes, 20), found));
    return refused(answer.cause, answer.place, "the indices of this record begin at byte %s; with %u vertices, byte %s is wanted",
                   grouped(word_at(bytes, 24), found), word_at(bytes, 12), grouped(indices_begin(in), wanted));
}

static int refuse_content(const input *in, bridgeyarn_read_answer answer)
{
    uint64_t begin = indices_begin(in), k;
    if (answer.cause != BRIDGEYARN_BAD_RECORD || answer.place < BRIDGEYARN_MESH_HEADER || answer.place + 4 > in->length)
        return refused(answer.cause, answer.place, "this record has changed while it was read");
    k = (answer.place - (answer.place < begin ? BRIDGEYARN_MESH_HEADER : begin)) / 4;
    if (answer.place < begin)
        return refused(answer.cause, answer.place, "coordinate %c of vertex %lu is not finite", "xyz"[k % 3], (unsigned long)(k / 3));
    return refused(answer.cause, answer.place, "index %lu is %u; there are %u vertices, counted from 0", (unsigned long)k, word_at(in->bytes, answer.place),
                   word_at(in->bytes, 12));
}

/* Asks for the room with none, makes it, and asks again. */
static int read_mesh(const input *in, mesh *m)
{
    bridgeyarn_read_answer room = bridgeyarn_mesh_read(in->bytes, in->length, NULL, 0, NULL, 0), answer;
    if (room.cause != BRIDGEYARN_DONE && room.cause != BRIDGEYARN_SHORT_OUTPUT)
        return refuse_content(in, room);
    m->coordinates = malloc(12 * room.vertices + 1);
    m->indices = malloc(4 * room.indices + 1);
    if (m->coordinates == NULL || m->indices == NULL)
        return cannot("hold the mesh of", in->name);
    answer = bridgeyarn_mesh_read(in->bytes, in->length, m->coordinates, 3 * room.vertices, m->indices, room.indices);
    if (answer.cause != BRIDGEYARN_DONE)
        return refuse_content(in, answer);
    m->vertex_count = answer.vertices;
    m->index_count = answer.indices;
    m->size = answer.size;
    m->numbering = answer.numbering;
    return DONE;
}

/* Of the header alone the library says first what is wrong with it, and last, at the same place as for the word before, that the rest is missing. */
int take_mesh(input *in, mesh *m)
{
    bridgeyarn_read_answer answer;
    char found[FOUND], wanted[GROUPED];
    int is_good, is_whole, status = read_up_to(in, BRIDGEYARN_MESH_HEADER);
    uint64_t needed;
    if (status != DONE)
        return status;
    answer = bridgeyarn_mesh_read(in->bytes, in->length, NULL, 0, NULL, 0);
    is_good = answer.cause == BRIDGEYARN_DONE
              || (answer.cause == BRIDGEYARN_BAD_RECORD && answer.place == 24 && in->length == BRIDGEYARN_MESH_HEADER && word_at(in->bytes, 24) == indices_begin(in));
    if (!is_good)
        return refuse_header(in, answer);
    needed = indices_begin(in) + 4 * (uint64_t)word_at(in->bytes, 20);
    status = read_rest(in, needed, &is_whole, found);
    if (status != DONE)
        return status;
    if (!is_whole)
        return refused(BRIDGEYARN_BAD_RECORD, 24, "this record has %s; V = %u and I = %u need %s", found, word_at(in->bytes, 12), word_at(in->bytes, 20),
                       grouped(needed, wanted));
    return read_mesh(in, m);
}

void free_mesh(mesh *m)
{
    free(m->coordinates);
    free(m->indices);
    memset(m, 0, sizeof *m);
}
