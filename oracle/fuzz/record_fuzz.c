/* Bytes from a coverage-guided fuzzer through bridgeyarn_record, beside a plain C twin of document 01's "Record and listing". The library
 * is linked as it is built for this machine, so the fuzzer is guided by the twin, which makes the same decisions; a read outside the bytes
 * faults, since they stand against a page that may not be read, once at its front and once at its back. */
#define _DEFAULT_SOURCE
#include "bridgeyarn.h"
#include <stdio.h>
#include <stdlib.h>
#include <string.h>
#include <sys/mman.h>
#include <unistd.h>

enum { MOST_SIZE = 128, MOST_LENGTH = 20 + 4 * MOST_SIZE * MOST_SIZE * (MOST_SIZE + 1) + 64 };

static const char *const kinds[8] = {"held", "size", "numbering", "count", "too short", "version", "offset", "length"};
static unsigned long times[8];
static uint8_t *room; /* whole pages, with a forbidden one on each side */
static size_t room_length;

static uint32_t word(const uint8_t *bytes)
{
    return bytes[0] | (uint32_t)bytes[1] << 8 | (uint32_t)bytes[2] << 16 | (uint32_t)bytes[3] << 24;
}

static bridgeyarn_record_answer refused(uint32_t cause, uint64_t place, int kind)
{
    bridgeyarn_record_answer answer = {cause, place, 0, 0};
    times[kind]++;
    return answer;
}

/* Comparisons of 32 bits, which the fuzzer finds again among its bytes: no product of a size up to 128 and no length here has more. */
static bridgeyarn_record_answer expected(const uint8_t *bytes, size_t length)
{
    bridgeyarn_record_answer answer = {0, 0, 0, 0};
    uint32_t n, count;
    if (length < 20)
        return refused(8, length, 4);
    if (word(bytes) != 1)
        return refused(8, 0, 5);
    n = word(bytes + 4);
    if (n < 2 || n > MOST_SIZE)
        return refused(1, 0, 1);
    if (word(bytes + 8) > 1)
        return refused(2, 0, 2);
    count = word(bytes + 12);
    if (count != n * n * (n + 1))
        return refused(3, 0, 3);
    if (word(bytes + 16) != 20)
        return refused(8, 16, 6);
    if ((uint32_t)length != 20 + 4 * count)
        return refused(8, 20, 7);
    times[0]++;
    answer.size = n;
    answer.numbering = word(bytes + 8);
    return answer;
}

static void compare(const uint8_t *bytes, size_t length)
{
    bridgeyarn_record_answer ours = bridgeyarn_record(bytes, length), twin = expected(bytes, length);
    if (ours.cause == twin.cause && ours.place == twin.place && ours.size == twin.size && ours.numbering == twin.numbering)
        return;
    fprintf(stderr, "record of %zu bytes: ours %u %llu %u %u, expected %u %llu %u %u\n", length, ours.cause, (unsigned long long)ours.place,
            ours.size, ours.numbering, twin.cause, (unsigned long long)twin.place, twin.size, twin.numbering);
    abort();
}

static void print_kinds(void)
{
    int kind;
    printf("answers:");
    for (kind = 0; kind < 8; kind++)
        printf(" %s %lu%s", kinds[kind], times[kind], kind < 7 ? "," : "\n");
}

int LLVMFuzzerInitialize(int *count, char ***words)
{
    size_t page = (size_t)sysconf(_SC_PAGESIZE);
    uint8_t *all;
    (void)count;
    (void)words;
    room_length = (MOST_LENGTH + page - 1) / page * page;
    all = mmap(NULL, room_length + 2 * page, PROT_NONE, MAP_PRIVATE | MAP_ANONYMOUS, -1, 0);
    if (all == MAP_FAILED || mprotect(all + page, room_length, PROT_READ | PROT_WRITE) != 0)
        abort();
    room = all + page;
    atexit(print_kinds);
    return 0;
}

/* The lowest bit of the first byte says whether the record is as long as the bytes that follow, or as a word before them says. */
int LLVMFuzzerTestOneInput(const uint8_t *data, size_t size)
{
    size_t length, given;
    if (size < 5)
        return 0;
    if (data[0] & 1) {
        data += 1;
        given = length = size - 1;
    } else {
        length = word(data + 1);
        data += 5;
        given = size - 5;
    }
    if (length > MOST_LENGTH)
        length %= MOST_LENGTH;
    if (given > length)
        given = length;
    memcpy(room, data, given);
    compare(room, length);
    memcpy(room + room_length - length, data, given);
    compare(room + room_length - length, length);
    return 0;
}
