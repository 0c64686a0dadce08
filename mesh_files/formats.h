/* A mesh in memory, and the files that other programs read it from. */
#ifndef FORMATS_H
#define FORMATS_H

#include <stdint.h>
#include <stdio.h>

typedef struct {
    uint32_t size, numbering;
    float *coordinates;  /* three for each vertex */
    uint32_t *indices;   /* three for each triangle */
    uint64_t vertex_count, index_count;
} mesh;

const char *numbering_word(uint32_t numbering);

/* Bodies for write_whole; `what` is a mesh. Each ends early where a write fails, so that errno has the reason. The corners of a triangle run counterclockwise as seen from outside, where the
 * samples are over 0: so these files have it, and a mesh has the second and the third corner the other way round. */
int write_obj(const void *what, FILE *out);  /* Wavefront OBJ                            */
int write_stl(const void *what, FILE *out);  /* binary STL, a unit normal each triangle  */
int write_ply(const void *what, FILE *out);  /* binary little-endian PLY                 */

/* The normal of triangle t, of length 1 and pointing outward, or zeros where the triangle is flat. */
void unit_normal(const mesh *m, uint64_t t, double normal[3]);

#endif
