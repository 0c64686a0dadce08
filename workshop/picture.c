/* A mesh as an SVG picture: seen from the corner where x, y and z are largest, z upward, each triangle one path shaded by its normal, the far ones
 * first. The outer side is blue; where the surface is open, its inner side shows in brown. */
#include "picture.h"
#include "formats.h"
#include "messages.h"
#include <stdlib.h>

/* In tenths of a unit of the picture. */
enum { WIDTH = 6400, MARGIN = 200 };

typedef struct {
    double depth;  /* larger is nearer */
    uint64_t triangle;
} far_first;

typedef struct {
    double left, top, scale;
    int height;
} frame;

/* Right and down on the picture, and toward the eye; lengths are the model's times the root of 6. */
static void project(const float *p, double seen[3])
{
    seen[0] = 1.7320508075688772 * ((double)p[1] - p[0]);
    seen[1] = (double)p[0] + p[1] - 2.0 * p[2];
    seen[2] = (double)p[0] + p[1] + p[2];
}

static frame frame_of(const mesh *m)
{
    double low[2] = { 0.0, 0.0 }, high[2] = { 0.0, 0.0 }, seen[3];
    uint64_t i;
    int axis;
    frame f;
    for (i = 0; i < m->vertex_count; i++) {
        project(m->coordinates + 3 * i, seen);
        for (axis = 0; axis < 2; axis++) {
            if (i == 0 || seen[axis] < low[axis])
                low[axis] = seen[axis];
            if (i == 0 || seen[axis] > high[axis])
                high[axis] = seen[axis];
        }
    }
    f.left = low[0];
    f.top = low[1];
    f.scale = high[0] > low[0] ? (WIDTH - 2 * MARGIN) / (high[0] - low[0]) : 0.0;
    f.height = 2 * MARGIN + (int)((high[1] - low[1]) * f.scale + 0.5);
    if (f.height > 3 * WIDTH) {
        f.scale *= (3.0 * WIDTH - 2 * MARGIN) / (f.height - 2 * MARGIN);
        f.height = 3 * WIDTH;
    }
    return f;
}

static int by_depth(const void *a, const void *b)
{
    const far_first *p = a, *q = b;
    if (p->depth != q->depth)
        return p->depth < q->depth ? -1 : 1;
    return (p->triangle > q->triangle) - (p->triangle < q->triangle);
}

static far_first *sorted(const mesh *m, uint64_t triangles)
{
    far_first *order = malloc((size_t)triangles * sizeof *order + 1);
    double seen[3];
    uint64_t t;
    int c;
    if (order == NULL)
        return NULL;
    for (t = 0; t < triangles; t++) {
        order[t].triangle = t;
        order[t].depth = 0.0;
        for (c = 0; c < 3; c++) {
            project(m->coordinates + 3 * (uint64_t)m->indices[3 * t + (uint64_t)c], seen);
            order[t].depth += seen[2];
        }
    }
    qsort(order, (size_t)triangles, sizeof *order, by_depth);
    return order;
}

/* The light comes from above, more from the side of x than from that of y, so that the sides of a box differ. */
static void write_colour(const double normal[3], FILE *out)
{
    const int outer[3] = { 150, 190, 215 }, inner[3] = { 205, 160, 125 };
    double facing = normal[0] + normal[1] + normal[2];
    double light = 0.40 * normal[0] + 0.20 * normal[1] + 0.89 * normal[2];
    const int *colour = facing < 0.0 ? inner : outer;
    if (facing < 0.0)
        light = -light;
    light = 0.45 + 0.6 * (light > 0.0 ? light : 0.0);
    if (light > 1.0)
        light = 1.0;
    fprintf(out, "#%02x%02x%02x", (unsigned)(colour[0] * light), (unsigned)(colour[1] * light), (unsigned)(colour[2] * light));
}

static void write_triangle(const mesh *m, const frame *f, uint64_t t, FILE *out)
{
    double seen[3], normal[3];
    int place[3][2], c;
    for (c = 0; c < 3; c++) {
        project(m->coordinates + 3 * (uint64_t)m->indices[3 * t + (uint64_t)c], seen);
        place[c][0] = MARGIN + (int)((seen[0] - f->left) * f->scale + 0.5);
        place[c][1] = MARGIN + (int)((seen[1] - f->top) * f->scale + 0.5);
    }
    unit_normal(m, t, normal);
    fprintf(out, "<path color=\"");
    write_colour(normal, out);
    fprintf(out, "\" d=\"M%d %dl%d %d %d %dz\"/>\n", place[0][0], place[0][1], place[1][0] - place[0][0], place[1][1] - place[0][1],
            place[2][0] - place[1][0], place[2][1] - place[1][1]);
}

int write_svg(const void *what, FILE *out)
{
    const mesh *m = what;
    uint64_t triangles = m->index_count / 3, i;
    far_first *order = sorted(m, triangles);
    frame f = frame_of(m);
    if (order == NULL)
        return 1;
    fprintf(out, "<svg xmlns=\"http://www.w3.org/2000/svg\" viewBox=\"0 0 %d %d\" width=\"%d\" height=\"%d\">\n", WIDTH, f.height, WIDTH / 10, f.height / 10);
    fprintf(out, "<title>size %u, %s numbering, %lu triangles</title>\n", m->size, numbering_word(m->numbering), (unsigned long)triangles);
    fprintf(out, "<g fill=\"currentColor\" stroke=\"currentColor\" stroke-width=\"4\" stroke-linejoin=\"round\">\n");
    for (i = 0; i < triangles && !ferror(out); i++) {
        write_triangle(m, &f, order[i].triangle, out);
        if (i % PROGRESS_STEP == 0)
            progress("writing", i, triangles);
    }
    if (!ferror(out))
        fprintf(out, "</g>\n</svg>\n");
    free(order);
    return ferror(out);
}
