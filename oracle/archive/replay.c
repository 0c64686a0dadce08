/* Replays the requests that the Rust side wrote (oracle/harness/src/replay.rs) through the archive that users link, and compares every
 * byte of every answer. Usage: replay FILE. */
#include "bridgeyarn.h"
#include <stdio.h>
#include <stdlib.h>
#include <string.h>

enum { CELL = 1, EDGE = 2, KEY = 3, EXTRACT = 4, RECORD = 5 };

static FILE *in;
static unsigned long replayed;

static void fail(const char *what)
{
    printf("replay: DIFFERS at request %lu: %s\n", replayed, what);
    exit(1);
}

static void get(void *to, size_t bytes)
{
    if (fread(to, 1, bytes, in) != bytes)
        fail("the file ends inside a request");
}

static void hold(const char *what, const void *ours, size_t bytes)
{
    unsigned char expected[64];
    get(expected, bytes);
    if (memcmp(ours, expected, bytes) != 0)
        fail(what);
}

static void replay_cell(void)
{
    float values[8];
    bridgeyarn_cell_answer answer;
    get(values, sizeof values);
    answer = bridgeyarn_cell(values);
    hold("bridgeyarn_cell", &answer, sizeof answer);
}

static void replay_edge(void)
{
    float ends[2];
    bridgeyarn_edge_answer answer;
    get(ends, sizeof ends);
    answer = bridgeyarn_edge(ends[0], ends[1]);
    hold("bridgeyarn_edge", &answer, sizeof answer);
}

static void hold_key(const char *what, bridgeyarn_key_answer answer)
{
    hold(what, &answer.cause, sizeof answer.cause);
    hold(what, &answer.value, sizeof answer.value);
}

static void replay_key(void)
{
    uint64_t key, other, word;
    uint32_t cause;
    float center[3] = {0.5f, -0.5f, 0.25f};
    bridgeyarn_half_size_answer half;
    get(&key, sizeof key);
    get(&other, sizeof other);
    hold_key("bridgeyarn_morton_level", bridgeyarn_morton_level(key));
    hold_key("bridgeyarn_morton_parent", bridgeyarn_morton_parent(key));
    hold_key("bridgeyarn_morton_child", bridgeyarn_morton_child(key, (uint32_t)other % 10));
    half = bridgeyarn_morton_half_size(key);
    hold("bridgeyarn_morton_half_size", &half, sizeof half);
    cause = bridgeyarn_morton_center(key, center);
    hold("bridgeyarn_morton_center", &cause, sizeof cause);
    hold("bridgeyarn_morton_center", center, sizeof center);
    word = bridgeyarn_morton_sum(key, other);
    hold("bridgeyarn_morton_sum", &word, sizeof word);
    word = bridgeyarn_morton_difference(key, other);
    hold("bridgeyarn_morton_difference", &word, sizeof word);
}

/* Words from the file in memory of their own, exactly as long. */
static void *words_of(uint32_t count)
{
    void *words = malloc(4 * (size_t)count + 1);
    if (words == NULL)
        fail("no memory");
    get(words, 4 * (size_t)count);
    return words;
}

static void hold_words(const char *what, void *ours, uint32_t count)
{
    void *expected = words_of(count);
    if (memcmp(ours, expected, 4 * (size_t)count) != 0)
        fail(what);
    free(expected);
    free(ours);
}

/* All memory lent is compared whole: what is written, what is not, and the working memory. */
static void replay_extract(void)
{
    uint32_t size, numbering, counts[4];
    float *samples, *vertices;
    uint32_t *work, *indices;
    bridgeyarn_answer answer;
    get(&size, sizeof size);
    get(&numbering, sizeof numbering);
    get(counts, sizeof counts);
    samples = words_of(counts[0]);
    work = words_of(counts[1]);
    vertices = words_of(counts[2]);
    indices = words_of(counts[3]);
    answer = bridgeyarn_extract(size, numbering, samples, counts[0], work, counts[1], vertices, counts[2], indices, counts[3]);
    hold("bridgeyarn_extract, cause", &answer.cause, sizeof answer.cause);
    hold("bridgeyarn_extract, place", &answer.place, sizeof answer.place);
    hold("bridgeyarn_extract, vertices", &answer.vertices, sizeof answer.vertices);
    hold("bridgeyarn_extract, indices", &answer.indices, sizeof answer.indices);
    hold_words("bridgeyarn_extract, working memory", work, counts[1]);
    hold_words("bridgeyarn_extract, vertex buffer", vertices, counts[2]);
    hold_words("bridgeyarn_extract, index buffer", indices, counts[3]);
    free(samples);
}

static void replay_record(void)
{
    uint32_t length;
    unsigned char *bytes;
    bridgeyarn_record_answer answer;
    get(&length, sizeof length);
    bytes = malloc(length + 1);
    if (bytes == NULL)
        fail("no memory");
    get(bytes, length);
    answer = bridgeyarn_record(bytes, length);
    free(bytes);
    hold("bridgeyarn_record", &answer.cause, sizeof answer.cause);
    hold("bridgeyarn_record", &answer.place, sizeof answer.place);
    hold("bridgeyarn_record", &answer.size, sizeof answer.size);
    hold("bridgeyarn_record", &answer.numbering, sizeof answer.numbering);
}

int main(int count, char **words)
{
    uint32_t call;
    in = count == 2 ? fopen(words[1], "rb") : NULL;
    if (in == NULL) {
        fprintf(stderr, "usage: replay FILE\n");
        return 2;
    }
    while (fread(&call, sizeof call, 1, in) == 1) {
        switch (call) {
        case CELL: replay_cell(); break;
        case EDGE: replay_edge(); break;
        case KEY: replay_key(); break;
        case EXTRACT: replay_extract(); break;
        case RECORD: replay_record(); break;
        default: fail("no such call");
        }
        replayed++;
    }
    printf("replay: %lu requests through the archive, no difference\n", replayed);
    return replayed == 0;
}
