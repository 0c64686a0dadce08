/* Sample records and mesh records as files: the header is judged before the rest is read, each judgement is the library's, and a refusal says
 * what was found and what is wanted. The machines that run this are little-endian, as records are. */
#ifndef RECORDS_H
#define RECORDS_H

#include "formats.h"
#include "input.h"

typedef struct {
    uint32_t size, numbering;
    const float *samples;  /* in the input's bytes */
    size_t sample_count;
} sample_grid;

/* The grid of a sample record; what it points to lasts until the input is closed. */
int take_samples(input *in, sample_grid *grid);

/* The mesh of a mesh record, in memory of its own that free_mesh gives back. */
int take_mesh(input *in, mesh *m);

void free_mesh(mesh *m);

/* ---- what the two share */

/* The little-endian word at a byte place. */
uint32_t word_at(const uint8_t *bytes, size_t place);

/* Whether the first bytes are those of the one kind of record or of the other; a file that is cut or damaged further on still is what it is. */
int looks_like_samples(const input *in);
int looks_like_mesh(const input *in);

/* Reads the rest of a record of `needed` bytes whose header is good. Where the length is another, `is_whole` is 0, and `found` says it. */
enum { FOUND = 64 };
int read_rest(input *in, uint64_t needed, int *is_whole, char found[FOUND]);

#endif
