/* bridgeyarn: from a grid of samples to a triangle mesh, proved. What each function here promises is proved of the Rattle code that
 * it calls; the definitions are named beside it.
 *
 * No call allocates, keeps a pointer or reads anything but its arguments. A slice is a pointer and a count of elements: the pointer is
 * aligned and good for that count (NULL where the count is 0), and slices of one call do not overlap. The processor rounds to nearest
 * and keeps subnormal values: a C program that is linked with -ffast-math may switch that off, and then nothing here is promised. Any
 * other argument gets an answer. A field that an answer's cause does not use is 0. */
#ifndef BRIDGEYARN_H
#define BRIDGEYARN_H

#include <stddef.h>
#include <stdint.h>

#define BRIDGEYARN_VERSION "0.1.0"

#ifdef __cplusplus
extern "C" {
#endif

/* Causes. The extraction tries 1 to 7 in this order, and gives each exactly where its condition holds and no earlier one does. */
#define BRIDGEYARN_DONE 0u            /* done                                             */
#define BRIDGEYARN_BAD_SIZE 1u        /* size under 2 or over 128                         */
#define BRIDGEYARN_BAD_NUMBERING 2u   /* numbering word not 0 or 1                        */
#define BRIDGEYARN_BAD_COUNT 3u       /* sample count not n * n * (n + 1)                 */
#define BRIDGEYARN_SHORT_WORK 4u      /* working memory under 8 * n * n + 6 * n words     */
#define BRIDGEYARN_BAD_SAMPLE 5u      /* a sample not finite, or of magnitude over 2^126  */
#define BRIDGEYARN_SHORT_VERTICES 6u  /* vertex buffer under 3 * V floats                 */
#define BRIDGEYARN_SHORT_INDICES 7u   /* index buffer under I words                       */
#define BRIDGEYARN_BAD_RECORD 8u      /* record malformed                                 */
#define BRIDGEYARN_BAD_KEY 9u         /* a bad Morton key or child                        */
#define BRIDGEYARN_SHORT_OUTPUT 10u   /* an output of a mesh record call too short        */

/* ---- the extraction */

#define BRIDGEYARN_CRATE 0u   /* numbering: as isosurface 0.0.4 gives it, bit for bit                */
#define BRIDGEYARN_JOINED 1u  /* numbering: one vertex for each grid edge whose ends differ in sign  */

#define BRIDGEYARN_LEAST_SIZE 2u
#define BRIDGEYARN_MOST_SIZE 128u

/* Counts of elements for a size n that is taken: the samples of its grid, and the words of working memory. */
#define BRIDGEYARN_SAMPLES(n) ((size_t)(n) * (n) * ((n) + 1u))
#define BRIDGEYARN_WORK(n) (8u * (size_t)(n) * (n) + 6u * (size_t)(n))

typedef struct {
    uint32_t cause;
    uint64_t place;     /* cause 5: the lowest bad place     */
    uint64_t vertices;  /* causes 0, 6 and 7: V              */
    uint64_t indices;   /* causes 0, 6 and 7: I              */
} bridgeyarn_answer;

/* The surface of a grid of size n = 2 to 128. Sample (x, y, z) stands at place (z * n + y) * n + x; there are n + 1 sample layers, so z reaches
 * n / (n - 1). A sample that is <= 0.0 is inside. A call with no room answers 6 or 7 with the V and I to make room for, or 0 where the mesh is
 * empty.
 *
 * After 0       the first 3 * V floats of vertices and I words of indices hold the mesh; the rest of both is unchanged.
 * After 6, 7    both are unchanged.
 * After 0, 6, 7 the first 8 * n * n + 6 * n words of work are 0, whatever they held; the rest is unchanged.
 * After 1 to 5  nothing lent has changed.
 * Definition: outcome, crates/outcome/specs/Outcome.antt. The proof tells NaN from other floats and not one NaN from another; what is said
 * to be unchanged is not written, so its bits stay too. */
bridgeyarn_answer bridgeyarn_extract(uint32_t size, uint32_t numbering,
    const float *samples, size_t sample_count,
    uint32_t *work, size_t work_count,
    float *vertices, size_t vertex_room,    /* room in floats */
    uint32_t *indices, size_t index_room);

/* ---- one cell */

typedef struct {
    uint8_t signs;     /* bit i is set where value i is <= 0.0; both zeros are, a NaN is not */
    int8_t edges[16];  /* the edges that the table's row names, in order, then -1            */
} bridgeyarn_cell_answer;

/* The sign byte of eight corner values, and the edges of the triangles in the cell. Any float is taken.
 * Definition: cell_of, crates/marching_cubes_impl/specs/Cell.antt. */
bridgeyarn_cell_answer bridgeyarn_cell(const float values[8]);

/* ---- one edge */

#define BRIDGEYARN_EDGE_ABSENT 0u    /* kind: no crossing */
#define BRIDGEYARN_EDGE_CROSSING 1u  /* kind: a crossing  */
#define BRIDGEYARN_EDGE_REFUSED 2u   /* kind: refused     */

typedef struct {
    uint32_t kind;
    uint32_t cause;  /* BRIDGEYARN_BAD_SAMPLE where refused     */
    uint32_t place;  /* where refused: the first bad end, 0 or 1 */
    float offset;    /* of a crossing: from the first end        */
} bridgeyarn_edge_answer;

/* Whether and where the surface crosses the edge whose ends have the samples a and b, in order. A bad sample is refused first; then there
 * is a crossing exactly where one of the two is <= 0.0.
 * Definition: edge_answer (crossing_of a b), crates/edge_answer/specs/Edge.antt and crates/marching_cubes_impl/specs/Edge.antt. */
bridgeyarn_edge_answer bridgeyarn_edge(float a, float b);

/* ---- a sample record
 *
 * Five little-endian u32: version 1, size n, numbering (0 crate, 1 joined), sample count n * n * (n + 1), and the byte place of the samples,
 * always 20; then the samples as little-endian f32, and nothing after them. */

#define BRIDGEYARN_RECORD_HEADER 20u  /* bytes before the samples */

typedef struct {
    uint32_t cause;      /* 0, BAD_SIZE, BAD_NUMBERING, BAD_COUNT or BAD_RECORD */
    uint64_t place;      /* after BAD_RECORD: the byte place                    */
    uint32_t size;       /* after 0                                             */
    uint32_t numbering;  /* after 0                                             */
} bridgeyarn_record_answer;

/* What the bytes hold, or the first refusal in this order: under 20 bytes (BAD_RECORD, place = length); version (BAD_RECORD, place 0); size
 * under 2 or over 128 (BAD_SIZE); BAD_NUMBERING; BAD_COUNT; place of the samples (BAD_RECORD, place 16); length other than 20 + 4 * count
 * (BAD_RECORD, place 20). The bytes are only read, and the samples not looked at; any bytes are taken, and none (NULL, 0).
 * Definition: record_answer (record_of 128 bytes), crates/record_answer/specs/Record.antt and crates/sample_record/specs/Record.antt. */
bridgeyarn_record_answer bridgeyarn_record(const uint8_t *bytes, size_t length);

/* ---- a mesh record
 *
 * Seven little-endian u32: version 1, size (2 to 128), numbering (0 or 1), vertex count V, byte place of the vertices, always 28, index count I, a
 * multiple of three, and byte place of the indices, 28 + 12 * V; then the vertices, three little-endian f32 each, all finite; then the indices as
 * little-endian u32, each below V; and nothing after them: the length is 28 + 12 * V + 4 * I. Two records of one mesh are the same bytes, and
 * coordinates keep their bits, both zeros and subnormal values too. Definitions: record_bytes and Good, crates/mesh_record/specs/Mesh.antt. */

#define BRIDGEYARN_MESH_VERSION 1u
#define BRIDGEYARN_MESH_HEADER 28u  /* bytes before the vertices */

typedef struct {
    uint32_t cause;  /* 0, BAD_SIZE, BAD_NUMBERING, BAD_RECORD or SHORT_OUTPUT                  */
    uint64_t place;  /* after BAD_RECORD: the byte place in the record to be                    */
    uint64_t bytes;  /* after 0: how many were written; after SHORT_OUTPUT: how many are needed */
} bridgeyarn_write_answer;

/* The record of a mesh, or the first refusal in this order: version other than 1 (BAD_RECORD, place 0); BAD_SIZE; BAD_NUMBERING; coordinates not in
 * threes, or V over 2^32 - 1 (BAD_RECORD, place 12); indices not in threes, or over 2^32 - 1 (BAD_RECORD, place 20); 28 + 12 * V over 2^32 - 1
 * (BAD_RECORD, place 24); the lowest coordinate k that is not finite (BAD_RECORD, place 28 + 4 * k), then the lowest index k that is not below V
 * (BAD_RECORD, place 28 + 12 * V + 4 * k); SHORT_OUTPUT.
 *
 * After 0           the record is the first `bytes` bytes of out, and the rest is unchanged.
 * After any other   nothing lent has changed.
 * Definition: writing, crates/mesh_write/specs/Writing.antt. */
bridgeyarn_write_answer bridgeyarn_mesh_write(uint32_t version, uint32_t size, uint32_t numbering,
    const float *coordinates, size_t coordinate_count,    /* count in floats: 3 * V */
    const uint32_t *indices, size_t index_count,
    uint8_t *out, size_t out_room);

typedef struct {
    uint32_t cause;      /* 0, BAD_SIZE, BAD_NUMBERING, BAD_RECORD or SHORT_OUTPUT */
    uint32_t size;       /* after 0                                                */
    uint32_t numbering;  /* after 0                                                */
    uint64_t place;      /* after BAD_RECORD: the byte place                       */
    uint64_t vertices;   /* after 0 and SHORT_OUTPUT: V                            */
    uint64_t indices;    /* after 0 and SHORT_OUTPUT: I                            */
} bridgeyarn_read_answer;

/* The mesh of a record, or the first refusal in this order: under 28 bytes (BAD_RECORD, place = length); version other than 1 (BAD_RECORD, place 0);
 * BAD_SIZE; BAD_NUMBERING; place of the vertices other than 28 (BAD_RECORD, place 16); index count not in threes (BAD_RECORD, place 20); place of the
 * indices other than 28 + 12 * V (BAD_RECORD, place 24); length other than 28 + 12 * V + 4 * I (BAD_RECORD, place 24); the lowest word that is a
 * coordinate not finite or an index not below V (BAD_RECORD, its byte place); SHORT_OUTPUT, where one of the rooms is too small, with the V and I to
 * make room for. The bytes are only read; any bytes are taken, and none (NULL, 0).
 *
 * After 0           the first 3 * V floats of coordinates and I words of indices hold the mesh; the rest of both is unchanged.
 * After any other   nothing lent has changed.
 * Definition: reading, crates/mesh_read/specs/Reading.antt. */
bridgeyarn_read_answer bridgeyarn_mesh_read(const uint8_t *bytes, size_t length,
    float *coordinates, size_t coordinate_room,           /* room in floats: 3 * V are needed */
    uint32_t *indices, size_t index_room);

/* ---- Morton keys
 *
 * A key is good if it is not 0 and its highest set bit stands at a multiple of 3; that place over 3 is its level, 0 to 21. Bits 0, 3, .., 63
 * are x (22 bits), 1, 4, .., 61 are y and 2, 5, .., 62 are z (21 bits each). A bad key is refused with BRIDGEYARN_BAD_KEY and zeros. */

typedef struct {
    uint32_t cause;
    uint64_t value;
} bridgeyarn_key_answer;

/* The level of a good key. Definition: level_of, crates/morton/specs/Answer.antt. */
bridgeyarn_key_answer bridgeyarn_morton_level(uint64_t key);

/* The good key shifted right by 3, never below 1: the root is its own parent. Definition: parent_of. */
bridgeyarn_key_answer bridgeyarn_morton_parent(uint64_t key);

/* 8 * key + which, of a good key below level 21 and a which up to 7; anything else is refused. Definition: child_of. */
bridgeyarn_key_answer bridgeyarn_morton_child(uint64_t key, uint32_t which);

typedef struct {
    uint32_t cause;
    float value;
} bridgeyarn_half_size_answer;

/* 1 / 2^(level + 1), exactly. Definition: half_size_of, crates/morton_cells/specs/Cell.antt. */
bridgeyarn_half_size_answer bridgeyarn_morton_half_size(uint64_t key);

/* Returns the cause. After 0, center holds x, y and z: (2b + 1) / 2^(level + 1) exactly, b being the number on the axis without the key's
 * highest set bit. After 9, center is as it was. The pointer is aligned and good for three floats. Definition: center_of. */
uint32_t bridgeyarn_morton_center(uint64_t key, float center[3]);

/* The word whose number on each axis is the sum, or the difference, of those of a and b, modulo 2^22 for x and 2^21 for y and z. Any two
 * words are taken and neither call refuses. Definitions: sum_of and difference_of, crates/morton_sums/specs/Interleaved.antt. */
uint64_t bridgeyarn_morton_sum(uint64_t a, uint64_t b);
uint64_t bridgeyarn_morton_difference(uint64_t a, uint64_t b);

#ifdef __cplusplus
}
#endif

#endif
