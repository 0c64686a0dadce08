/* Meshes as OBJ, STL and PLY files, triangles turned outward. The machines that run this are little-endian, as the files are. */
#include "formats.h"
#include "bridgeyarn.h"
#include "messages.h"
#include <math.h>
#include <string.h>

const char *numbering_word(uint32_t numbering)
{
    return numbering == BRIDGEYARN_CRATE ? "crate" : "joined";
}

/* The number of the vertex at corner c of triangle t, turned outward. */
static uint32_t number_at(const mesh *m, uint64_t t, int c)
{
    return m->indices[3 * t + (uint64_t)(3 - c) % 3];
}

/* OBJ counts vertices from 1. Nine digits tell any two floats apart. */
int write_obj(const void *what, FILE *out)
{
    const mesh *m = what;
    uint64_t triangles = m->index_count / 3, lines = m->vertex_count + triangles, i;
    fprintf(out, "# size %u, %s numbering, %lu vertices, %lu triangles\n", m->size, numbering_word(m->numbering), (unsigned long)m->vertex_count,
            (unsigned long)triangles);
    for (i = 0; i < m->vertex_count && !ferror(out); i++) {
        fprintf(out, "v %.9g %.9g %.9g\n", m->coordinates[3 * i], m->coordinates[3 * i + 1], m->coordinates[3 * i + 2]);
        if (i % PROGRESS_STEP == 0)
            progress("writing", i, lines);
    }
    for (i = 0; i < triangles && !ferror(out); i++) {
        fprintf(out, "f %u %u %u\n", number_at(m, i, 0) + 1, number_at(m, i, 1) + 1, number_at(m, i, 2) + 1);
        if (i % PROGRESS_STEP == 0)
            progress("writing", m->vertex_count + i, lines);
    }
    return ferror(out);
}

static const float *corner(const mesh *m, uint64_t t, int c)
{
    return m->coordinates + 3 * (uint64_t)number_at(m, t, c);
}

void unit_normal(const mesh *m, uint64_t t, double normal[3])
{
    const float *a = corner(m, t, 0), *b = corner(m, t, 1), *c = corner(m, t, 2);
    double u[3], v[3], length = 0.0;
    int i;
    for (i = 0; i < 3; i++) {
        u[i] = (double)b[i] - a[i];
        v[i] = (double)c[i] - a[i];
    }
    for (i = 0; i < 3; i++) {
        normal[i] = u[(i + 1) % 3] * v[(i + 2) % 3] - u[(i + 2) % 3] * v[(i + 1) % 3];
        length += normal[i] * normal[i];
    }
    length = sqrt(length);
    for (i = 0; i < 3; i++)
        normal[i] = length > 1e-12 ? normal[i] / length : 0.0;
}

/* Fifty bytes each: the normal, the corners, and two bytes that are 0. */
static void lay_facet(const mesh *m, uint64_t t, uint8_t facet[50])
{
    double normal[3];
    float parts[12];
    int c;
    unit_normal(m, t, normal);
    for (c = 0; c < 3; c++) {
        parts[c] = (float)normal[c];
        memcpy(parts + 3 + 3 * c, corner(m, t, c), 12);
    }
    memcpy(facet, parts, 48);
    memset(facet + 48, 0, 2);
}

int write_stl(const void *what, FILE *out)
{
    const mesh *m = what;
    uint32_t triangles = (uint32_t)(m->index_count / 3), t;
    uint8_t facet[50];
    char title[80];
    memset(title, ' ', sizeof title);
    memcpy(title, "bridgeyarn", 10);
    fwrite(title, 1, sizeof title, out);
    fwrite(&triangles, 4, 1, out);
    for (t = 0; t < triangles && !ferror(out); t++) {
        lay_facet(m, t, facet);
        fwrite(facet, 1, sizeof facet, out);
        if (t % PROGRESS_STEP == 0)
            progress("writing", t, triangles);
    }
    return ferror(out);
}

/* Thirteen bytes for each triangle: the number of its corners, and their vertices. */
int write_ply(const void *what, FILE *out)
{
    const mesh *m = what;
    uint8_t face[13] = { 3 };
    uint32_t number;
    uint64_t t;
    int c;
    fprintf(out, "ply\nformat binary_little_endian 1.0\ncomment size %u, %s numbering\n", m->size, numbering_word(m->numbering));
    fprintf(out, "element vertex %lu\nproperty float x\nproperty float y\nproperty float z\n", (unsigned long)m->vertex_count);
    fprintf(out, "element face %lu\nproperty list uchar uint vertex_indices\nend_header\n", (unsigned long)m->index_count / 3);
    fwrite(m->coordinates, 4, 3 * m->vertex_count, out);
    for (t = 0; t < m->index_count / 3 && !ferror(out); t++) {
        for (c = 0; c < 3; c++) {
            number = number_at(m, t, c);
            memcpy(face + 1 + 4 * c, &number, 4);
        }
        fwrite(face, 1, sizeof face, out);
        if (t % PROGRESS_STEP == 0)
            progress("writing", t, m->index_count / 3);
    }
    return ferror(out);
}
