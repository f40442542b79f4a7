/* PIZ in plain C, the same steps as exr_piz: the value map, a look-up of each word, the wavelet of each plane and the Huffman
   block, and rows between raw data and planes. Tables are sized by the values that occur. */
#pragma once
#include <stdint.h>
#include <stdlib.h>
#include <string.h>
#include "huffman.h"
#include "wavelet.h"

/* Channels of one kind: how many columns, lines and channels there are, and the bytes of a sample, 2 or 4. */
typedef struct { size_t wide, high, channels, bytes; } PizShape;

static inline size_t piz_raw_size(PizShape s) { return s.wide * s.high * s.channels * s.bytes; }

/* Rows from raw data, which goes line by line, to planes or back. */
static inline void piz_regroup(PizShape s, const uint8_t *from, uint8_t *to, int is_back) {
    size_t row = s.wide * s.bytes;
    for (size_t y = 0; y < s.high; y++)
        for (size_t c = 0; c < s.channels; c++) {
            size_t raw = (y * s.channels + c) * row, plane = (c * s.high + y) * row;
            if (is_back) memcpy(to + raw, from + plane, row);
            else memcpy(to + plane, from + raw, row);
        }
}

static inline void piz_planes(PizShape s, uint16_t *words, uint16_t max, int is_back) {
    size_t step = s.bytes / 2;
    for (size_t c = 0; c < s.channels; c++)
        for (size_t p = 0; p < step; p++) {
            uint16_t *plane = words + c * s.wide * s.high * step + p;
            if (is_back) wavelet_decode(plane, s.wide, s.high, step, max);
            else wavelet_encode(plane, s.wide, s.high, step, max);
        }
}

/* The raw data, or null where the packed data is not whole. */
static inline uint8_t *piz_unpack(const uint8_t *packed, size_t size, PizShape s) {
    size_t raw_size = piz_raw_size(s), count = raw_size / 2;
    if (size < 4) return 0;
    size_t first = packed[0] | packed[1] << 8, last = packed[2] | packed[3] << 8;
    if (first > 8191 || last > 8191) return 0;
    size_t bytes = last >= first ? last - first + 1 : 0;
    if (size < 8 + bytes) return 0;
    const uint8_t *map = packed + 4;
    size_t length = number(map + bytes, 0);
    if (length >> 31 || size - 8 - bytes < length) return 0;
    uint16_t *words = malloc(2 * count), *values = malloc(2 * (8 * bytes + 1));
    size_t found = 1;
    values[0] = 0;
    for (size_t v = first ? 8 * first : 1; v < 8 * (first + bytes); v++) {
        values[found] = v;
        found += map[v / 8 - first] >> v % 8 & 1;
    }
    if (!huffman_unpack(map + bytes + 4, length, words, count)) return 0;
    piz_planes(s, words, found - 1, 1);
    uint8_t *planar = malloc(raw_size), *raw = malloc(raw_size);
    for (size_t k = 0; k < count; k++) {
        uint16_t value = words[k] < found ? values[words[k]] : 0;
        planar[2 * k] = value;
        planar[2 * k + 1] = value >> 8;
    }
    piz_regroup(s, planar, raw, 1);
    free(words), free(values), free(planar);
    return raw;
}

static inline uint8_t *piz_pack(const uint8_t *raw, PizShape s, size_t *used) {
    size_t raw_size = piz_raw_size(s), count = raw_size / 2;
    uint8_t *planar = malloc(raw_size);
    uint16_t *words = malloc(2 * count), greatest = 0;
    piz_regroup(s, raw, planar, 0);
    for (size_t k = 0; k < count; k++) words[k] = planar[2 * k] | planar[2 * k + 1] << 8;
    for (size_t k = 0; k < count; k++)
        if (words[k] > greatest) greatest = words[k];
    size_t size = greatest / 8 + 1, first = 0, end = size, rank = 1;
    uint8_t *marks = calloc(8 * size, 1), *map = malloc(size);
    uint16_t *ranks = malloc(16 * size);
    for (size_t k = 0; k < count; k++) marks[words[k]] = 1;
    marks[0] = 0, ranks[0] = 0;
    for (size_t b = 0; b < size; b++) {
        uint8_t byte = 0;
        for (int i = 0; i < 8; i++) byte |= marks[8 * b + i] << i;
        map[b] = byte;
    }
    for (size_t v = 1; v < 8 * size; v++) ranks[v] = rank, rank += marks[v];
    for (size_t k = 0; k < count; k++) words[k] = ranks[words[k]];
    while (end > 0 && !map[end - 1]) end--;
    while (first < end && !map[first]) first++;
    size_t least = end ? first : 8191, most = end ? end - 1 : 0, length;
    piz_planes(s, words, rank - 1, 0);
    uint8_t *block = huffman_pack(words, count, &length);
    uint8_t *packed = malloc(8 + end - first + length);
    packed[0] = least, packed[1] = least >> 8, packed[2] = most, packed[3] = most >> 8;
    memcpy(packed + 4, map + first, end - first);
    put_number(packed + 4 + end - first, length);
    memcpy(packed + 8 + end - first, block, length);
    *used = 8 + end - first + length;
    free(planar), free(words), free(marks), free(map), free(ranks), free(block);
    return packed;
}
