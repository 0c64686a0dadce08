/* The surface of a sphere, as any C program can ask for it: a call with no room says how much to make, and the next call fills it.
 * Another radius can be given: 0 has no surface, and nan is refused. */
#include "bridgeyarn.h"
#include <stdio.h>
#include <stdlib.h>

static void *room_for(size_t count, size_t size)
{
    void *room = malloc(count * size + 1);
    if (room == NULL) {
        fputs("no memory\n", stderr);
        exit(3);
    }
    return room;
}

/* A sample is 0.0 or below inside, over 0.0 outside; the grid reaches from 0 to 1 along x and y, and one layer further along z. */
static void fill(float *samples, uint32_t n, float radius)
{
    uint32_t x, y, z;
    float u, v, w, h = 1.0f / (float)(n - 1);
    for (z = 0; z <= n; z++)
        for (y = 0; y < n; y++)
            for (x = 0; x < n; x++) {
                u = (float)x * h - 0.5f, v = (float)y * h - 0.5f, w = (float)z * h - 0.5f;
                samples[((size_t)z * n + y) * n + x] = u * u + v * v + w * w - radius * radius;
            }
}

int main(int count, char **words)
{
    const uint32_t n = 32;
    float *samples = room_for(BRIDGEYARN_SAMPLES(n), sizeof *samples), *vertices;
    uint32_t *work = room_for(BRIDGEYARN_WORK(n), sizeof *work), *indices;
    bridgeyarn_answer a;
    fill(samples, n, count > 1 ? (float)strtod(words[1], NULL) : 0.4f);

    a = bridgeyarn_extract(n, BRIDGEYARN_JOINED, samples, BRIDGEYARN_SAMPLES(n), work, BRIDGEYARN_WORK(n), NULL, 0, NULL, 0);
    vertices = room_for(3 * a.vertices, sizeof *vertices); /* both counts are 0 after a refusal, and where there is no surface */
    indices = room_for(a.indices, sizeof *indices);
    if (a.cause == BRIDGEYARN_SHORT_VERTICES)
        a = bridgeyarn_extract(n, BRIDGEYARN_JOINED, samples, BRIDGEYARN_SAMPLES(n), work, BRIDGEYARN_WORK(n), vertices, 3 * a.vertices, indices,
                               a.indices);

    if (a.cause != BRIDGEYARN_DONE)
        printf("refused %u at %lu\n", a.cause, (unsigned long)a.place);
    else if (a.indices == 0)
        printf("no surface\n");
    else
        printf("%lu vertices and %lu triangles; the first vertex is at %g %g %g\n", (unsigned long)a.vertices, (unsigned long)a.indices / 3,
               vertices[3 * indices[0]], vertices[3 * indices[0] + 1], vertices[3 * indices[0] + 2]);
    free(samples);
    free(work);
    free(vertices);
    free(indices);
    return a.cause == BRIDGEYARN_DONE ? 0 : 1;
}
