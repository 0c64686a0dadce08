/* Writes a sample record to standard output, so that there is something to run the planner on. */
#include "bridgeyarn.h"
#include "messages.h"
#include <getopt.h>
#include <stdio.h>
#include <stdlib.h>
#include <string.h>

const char program[] = "grid";
const char help[] =
    "usage: grid SURFACE SIZE NUMBERING [nan] > RECORD\n"
    "Writes the sample record of a surface to standard output, for the planner.\n"
    "SURFACE is sphere, gyroid, boxes or cushion; NUMBERING is 0 (crate) or 1 (joined), and any other number is written as it\n"
    "is, for tests. With nan, the sample in the middle is not a number.\n"
    "\n"
    "  --help     prints this\n"
    "  --version  prints the version\n"
    "\n"
    "Exit status: 0 the record is written; 2 wrong usage; 3 the record could not be written.\n";

static float absolute(float v)
{
    return v < 0.0f ? -v : v;
}

static float larger(float a, float b)
{
    return a < b ? b : a;
}

/* A wave of period 1 between -1 and 1, zero where the sine of a full turn is: parabolas close to a sine. */
static float wave(float t)
{
    float part = t - (float)(int)t;
    if (part < 0.0f)
        part += 1.0f;
    return part < 0.5f ? 16.0f * part * (0.5f - part) : -16.0f * (part - 0.5f) * (1.0f - part);
}

static float sphere(float x, float y, float z)
{
    float u = x - 0.5f, v = y - 0.5f, w = z - 0.5f;
    return u * u + v * v + w * w - 0.16f;
}

static float gyroid(float x, float y, float z)
{
    float a = 3.0f * x, b = 3.0f * y, c = 3.0f * z;
    return wave(a) * wave(b + 0.25f) + wave(b) * wave(c + 0.25f) + wave(c) * wave(a + 0.25f);
}

static float box(float x, float y, float z, float cx, float cy, float cz, float half)
{
    return larger(larger(absolute(x - cx), absolute(y - cy)), absolute(z - cz)) - half;
}

static float boxes(float x, float y, float z)
{
    float a = box(x, y, z, 0.35f, 0.35f, 0.35f, 0.2f), b = box(x, y, z, 0.62f, 0.62f, 0.62f, 0.23f);
    return a < b ? a : b;
}

/* A block with a bowl for the back of a head, and a groove for the neck that runs out at one side. */
static float cushion(float x, float y, float z)
{
    float u = x - 0.55f, v = y - 0.5f, w = z - 0.85f, g = z - 0.66f;
    float block = larger(larger(absolute(x - 0.5f) - 0.42f, absolute(y - 0.5f) - 0.36f), absolute(z - 0.4f) - 0.25f);
    float head = 0.16f - (u * u + 1.3f * v * v + w * w), neck = 0.035f - (v * v + g * g);
    return larger(block, x < 0.55f ? larger(head, neck) : head);
}

typedef float (*surface)(float x, float y, float z);

static surface surface_of(const char *name)
{
    if (strcmp(name, "sphere") == 0)
        return sphere;
    if (strcmp(name, "gyroid") == 0)
        return gyroid;
    if (strcmp(name, "boxes") == 0)
        return boxes;
    return strcmp(name, "cushion") == 0 ? cushion : NULL;
}

/* The number that the whole word is, or more than any number that is taken. */
static unsigned long number_of(const char *word)
{
    char *end;
    unsigned long number = strtoul(word, &end, 10);
    return word[0] < '0' || word[0] > '9' || *end != '\0' || number > 0xFFFFFFFFul ? ~0ul : number;
}

static void write_record(surface f, uint32_t n, uint32_t numbering, int with_nan)
{
    uint32_t count = (uint32_t)BRIDGEYARN_SAMPLES(n), header[5], x, y, z;
    float h = 1.0f / (float)(n - 1), value;
    header[0] = 1;
    header[1] = n;
    header[2] = numbering;
    header[3] = count;
    header[4] = BRIDGEYARN_RECORD_HEADER;
    fwrite(header, 4, 5, stdout);
    for (z = 0; z <= n && !ferror(stdout); z++)
        for (y = 0; y < n; y++)
            for (x = 0; x < n; x++) {
                value = f((float)x * h, (float)y * h, (float)z * h);
                if (with_nan && (z * n + y) * n + x == count / 2)
                    memset(&value, 0xFF, sizeof value);
                fwrite(&value, 4, 1, stdout);
            }
}

int main(int count, char **words)
{
    unsigned long n, numbering;
    int status;
    begin();
    status = take_options(count, words, NULL);
    if (status >= 0)
        return finish(status);
    count -= optind;
    words += optind;
    if (count < 3 || count > 4 || (count == 4 && strcmp(words[3], "nan") != 0))
        return finish(misused("SURFACE, SIZE and NUMBERING are wanted, and nan after them or nothing"));
    if (surface_of(words[0]) == NULL)
        return finish(misused("surface %s: sphere, gyroid, boxes and cushion are there", shown(words[0])));
    n = number_of(words[1]);
    numbering = number_of(words[2]);
    if (n < BRIDGEYARN_LEAST_SIZE || n > BRIDGEYARN_MOST_SIZE)
        return finish(misused("size %s: %u to %u are taken", shown(words[1]), BRIDGEYARN_LEAST_SIZE, BRIDGEYARN_MOST_SIZE));
    if (numbering > 0xFFFFFFFFul)
        return finish(misused("numbering %s: 0 (crate) and 1 (joined) are taken", shown(words[2])));
    write_record(surface_of(words[0]), (uint32_t)n, (uint32_t)numbering, count == 4);
    return finish(DONE);
}
