/* Run lengths in plain C: `rle_pack` and `rle_unpack`, each giving a buffer of its own, and `rle_unpack_into` buffers that are there. */
#pragma once
#include <stdint.h>
#include <stdlib.h>
#include <string.h>

/* Unpacks into `raw`, with room for as many bytes in `bytes`, and answers whether the packed data stands for just so many. */
static inline int rle_unpack_into(const uint8_t *packed, size_t size, uint8_t *bytes, uint8_t *raw, size_t wanted) {
    size_t at = 0, to = 0;
    while (at < size) {
        size_t count = packed[at++];
        if (count < 128) {
            count++;
            if (at == size || count > wanted - to) return 0;
            memset(bytes + to, packed[at++], count);
        } else {
            count = 256 - count;
            if (count > size - at || count > wanted - to) return 0;
            memcpy(bytes + to, packed + at, count);
            at += count;
        }
        to += count;
    }
    if (to != wanted) return 0;
    uint8_t before = 128;
    for (size_t k = 0; k < wanted; k++) bytes[k] = before += bytes[k] - 128;
    size_t pairs = wanted / 2, middle = wanted - pairs;
    for (size_t k = 0; k < pairs; k++) {
        raw[2 * k] = bytes[k];
        raw[2 * k + 1] = bytes[middle + k];
    }
    if (pairs < middle) raw[2 * pairs] = bytes[pairs];
    return 1;
}

/* The raw bytes, or null where the packed data does not stand for so many. */
static inline uint8_t *rle_unpack(const uint8_t *packed, size_t size, size_t wanted) {
    uint8_t *bytes = malloc(wanted + 1), *raw = malloc(wanted + 1);
    int is_whole = rle_unpack_into(packed, size, bytes, raw, wanted);
    free(bytes);
    if (is_whole) return raw;
    free(raw);
    return 0;
}

/* The packed data; its size goes to `used`. */
static inline uint8_t *rle_pack(const uint8_t *raw, size_t size, size_t *used) {
    uint8_t *bytes = malloc(size + 1), *packed = malloc(size + size / 127 + 1);
    size_t pairs = size / 2, middle = size - pairs;
    for (size_t k = 0; k < pairs; k++) {
        bytes[k] = raw[2 * k];
        bytes[middle + k] = raw[2 * k + 1];
    }
    if (pairs < middle) bytes[pairs] = raw[2 * pairs];
    uint8_t before = size > 0 ? bytes[0] : 0;
    for (size_t k = 1; k < size; k++) {
        uint8_t here = bytes[k];
        bytes[k] = here - before + 128;
        before = here;
    }
    size_t at = 0, end = 1, to = 0;
    while (at < size) {
        while (end < size && bytes[end] == bytes[at] && end - at < 128) end++;
        if (end - at >= 3) {
            packed[to++] = end - at - 1;
            packed[to++] = bytes[at];
        } else {
            while (end < size && end - at < 127
                   && (end + 2 >= size || bytes[end] != bytes[end + 1] || bytes[end + 1] != bytes[end + 2]))
                end++;
            packed[to++] = at - end;
            memcpy(packed + to, bytes + at, end - at);
            to += end - at;
        }
        at = end++;
    }
    free(bytes);
    *used = to;
    return packed;
}
