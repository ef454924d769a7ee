/* The coding of bdi_line and bdi_page in plain C, for comparison: packing TASK KIND TURNS.
 * The pages and the printed sums are those of bench_packing. */
#include <stdint.h>
#include <stdio.h>
#include <stdlib.h>
#include <string.h>

enum { ZEROS, REPEATED, B8D1, B8D2, B8D4, B4D1, B4D2, B2D1, RAW };

static const unsigned sizes[9] = {0, 8, 17, 25, 41, 22, 38, 38, 64};

/* The payload of values of a width with deltas of another, or 0 where they don't fit. */
#define SPLIT(NAME, VALUE, COUNT, DELTA)                                      \
    static size_t NAME(const uint8_t *line, uint8_t *out)                     \
    {                                                                         \
        const VALUE half = (VALUE)1 << (8 * DELTA - 1);                       \
        const VALUE whole = (VALUE)(2 * half);                                \
        VALUE values[COUNT], base = 0;                                        \
        uint64_t mask = 0;                                                    \
        int found = 0;                                                        \
        memcpy(values, line, 64);                                             \
        for (int j = 0; j < COUNT; j++) {                                     \
            if ((VALUE)(values[j] + half) >= whole) {                         \
                if (!found) {                                                 \
                    found = 1;                                                \
                    base = values[j];                                         \
                }                                                             \
                mask |= (uint64_t)1 << j;                                     \
                values[j] = (VALUE)(values[j] - base);                        \
                if ((VALUE)(values[j] + half) >= whole)                       \
                    return 0;                                                 \
            }                                                                 \
        }                                                                     \
        memcpy(out, &mask, COUNT / 8);                                        \
        memcpy(out + COUNT / 8, &base, sizeof base);                          \
        uint8_t *deltas = out + COUNT / 8 + sizeof base;                      \
        for (int j = 0; j < COUNT; j++)                                       \
            memcpy(deltas + DELTA * j, &values[j], DELTA);                    \
        return COUNT / 8 + sizeof base + DELTA * COUNT;                       \
    }

SPLIT(split_b8d1, uint64_t, 8, 1)
SPLIT(split_b8d2, uint64_t, 8, 2)
SPLIT(split_b8d4, uint64_t, 8, 4)
SPLIT(split_b4d1, uint32_t, 16, 1)
SPLIT(split_b4d2, uint32_t, 16, 2)
SPLIT(split_b2d1, uint16_t, 32, 1)

static int pack_line(const uint8_t *line, uint8_t *out)
{
    uint64_t words[8], all = 0, differ = 0;
    memcpy(words, line, 64);
    for (int j = 0; j < 8; j++) {
        all |= words[j];
        differ |= words[j] ^ words[0];
    }
    if (!all)
        return ZEROS;
    if (!differ) {
        memcpy(out, line, 8);
        return REPEATED;
    }
    if (split_b8d1(line, out))
        return B8D1;
    if (split_b4d1(line, out))
        return B4D1;
    if (split_b8d2(line, out))
        return B8D2;
    if (split_b4d2(line, out))
        return B4D2;
    if (split_b2d1(line, out))
        return B2D1;
    if (split_b8d4(line, out))
        return B8D4;
    memcpy(out, line, 64);
    return RAW;
}

#define JOIN(NAME, VALUE, SIGNED, COUNT, DELTA)                               \
    static void NAME(const uint8_t *in, uint8_t *line)                        \
    {                                                                         \
        VALUE values[COUNT], base;                                            \
        uint64_t mask = 0;                                                    \
        memcpy(&mask, in, COUNT / 8);                                         \
        memcpy(&base, in + COUNT / 8, sizeof base);                           \
        const uint8_t *deltas = in + COUNT / 8 + sizeof base;                 \
        for (int j = 0; j < COUNT; j++) {                                     \
            SIGNED delta;                                                     \
            memcpy(&delta, deltas + DELTA * j, DELTA);                        \
            values[j] = (VALUE)delta;                                         \
            if (mask >> j & 1)                                                \
                values[j] = (VALUE)(values[j] + base);                        \
        }                                                                     \
        memcpy(line, values, 64);                                             \
    }

JOIN(join_b8d1, uint64_t, int8_t, 8, 1)
JOIN(join_b8d2, uint64_t, int16_t, 8, 2)
JOIN(join_b8d4, uint64_t, int32_t, 8, 4)
JOIN(join_b4d1, uint32_t, int8_t, 16, 1)
JOIN(join_b4d2, uint32_t, int16_t, 16, 2)
JOIN(join_b2d1, uint16_t, int8_t, 32, 1)

/* The line of a payload. */
static void decode_line(int code, const uint8_t *in, uint8_t *line)
{
    switch (code) {
    case ZEROS: memset(line, 0, 64); break;
    case REPEATED: for (int j = 0; j < 8; j++) memcpy(line + 8 * j, in, 8); break;
    case B8D1: join_b8d1(in, line); break;
    case B8D2: join_b8d2(in, line); break;
    case B8D4: join_b8d4(in, line); break;
    case B4D1: join_b4d1(in, line); break;
    case B4D2: join_b4d2(in, line); break;
    case B2D1: join_b2d1(in, line); break;
    default: memcpy(line, in, 64);
    }
}

/* Whether the payload is a line's packing; the line is set. */
static int unpack_line(int code, const uint8_t *in, uint8_t *line)
{
    uint8_t again[64];
    decode_line(code, in, line);
    return pack_line(line, again) == code && !memcmp(again, in, sizes[code]);
}

static size_t pack(const uint8_t *page, uint8_t *out)
{
    size_t at = 32;
    for (int j = 0; j < 32; j++) {
        int low = pack_line(page + 128 * j, out + at);
        at += sizes[low];
        int high = pack_line(page + 128 * j + 64, out + at);
        at += sizes[high];
        out[j] = (uint8_t)(low + 16 * high);
    }
    return at;
}

static int unpack(const uint8_t *in, size_t len, uint8_t *page)
{
    static uint8_t read[4096];
    size_t at = 32;
    if (len < 32)
        return 0;
    for (int i = 0; i < 64; i++) {
        int code = i % 2 ? in[i / 2] >> 4 : in[i / 2] & 15;
        if (code > 8 || sizes[code] > len - at || !unpack_line(code, in + at, read + 64 * i))
            return 0;
        at += sizes[code];
    }
    if (at != len)
        return 0;
    memcpy(page, read, 4096);
    return 1;
}

/* Sets the page whose packing the bytes are known to be. */
static void decode(const uint8_t *in, uint8_t *page)
{
    size_t at = 32;
    for (int i = 0; i < 64; i++) {
        int code = i % 2 ? in[i / 2] >> 4 : in[i / 2] & 15;
        decode_line(code, in + at, page + 64 * i);
        at += sizes[code];
    }
}

static int same_word(const uint8_t *page)
{
    uint64_t words[512];
    memcpy(words, page, 4096);
    for (int j = 1; j < 512; j++)
        if (words[j] != words[0])
            return 0;
    return 1;
}

static void fill(uint8_t *page, uint64_t word)
{
    for (int j = 0; j < 512; j++)
        memcpy(page + 8 * j, &word, 8);
}

static void put_seq(uint8_t *page, int first, int words, uint64_t base, uint64_t step)
{
    for (int k = 0; k < words; k++, base += step)
        memcpy(page + 8 * (first + k), &base, 8);
}

static void set_page(uint8_t *page, int kind)
{
    static const uint64_t lines[9][2] = {
        {0, 0}, {0x123456789abcdef0, 0}, {0x123456789abcdef0, 3},
        {0x123456789abcdef0, 0x123}, {0x123456789abcdef0, 0x01234567},
        {0x1234567012345678, 0x0000000300000002}, {0x1234000012345678, 0x0000012300000234},
        {0x123012341238123c, 0x0001000200030004}, {0, 0x9e3779b97f4a7c15}};
    switch (kind) {
    case 0: put_seq(page, 0, 512, 0x123456789abcdef0, 0); break;
    case 1: put_seq(page, 0, 512, 1000000, 1); break;
    case 2: put_seq(page, 0, 512, 0, 0x9e3779b97f4a7c15); break;
    case 3: put_seq(page, 0, 512, 1000000, 0x1000000); break;
    default: for (int i = 0; i < 64; i++) put_seq(page, 8 * i, 8, lines[i % 9][0], lines[i % 9][1]);
    }
}

int main(int argc, char **argv)
{
    static uint8_t page[4096], out[4128];
    uint64_t sum = 0;
    if (argc < 4)
        return 1;
    const char *task = argv[1];
    unsigned long turns = strtoul(argv[3], 0, 10);
    set_page(page, atoi(argv[2]));
    size_t len = pack(page, out);
    for (unsigned long n = 0; n < turns; n++) {
        /* The page may have changed, as far as the compiler knows. */
        __asm__ volatile("" : : "r"(page), "r"(out) : "memory");
        if (!strcmp(task, "pack"))
            sum += pack(page, out);
        else if (!strcmp(task, "unpack"))
            sum += (uint64_t)unpack(out, len, page);
        else if (!strcmp(task, "decode")) {
            decode(out, page);
            sum += page[4088];
        } else if (!strcmp(task, "same"))
            sum += (uint64_t)same_word(page);
        else {
            fill(page, n);
            sum += page[4088];
        }
    }
    printf("%llu\n", (unsigned long long)sum);
    return 0;
}
