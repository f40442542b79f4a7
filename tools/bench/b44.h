/* B44 and B44A in plain C, for HALF channels without subsampling whose linear byte is 0: cells of 4 by 4 samples,
   channel by channel, from and to raw lines in which the channels stand one after the other. */
#pragma once
#include <stdint.h>
#include <stdlib.h>
#include <string.h>

static inline int b44_difference(int step, const uint16_t *d) {
    static const uint8_t firsts[15] = {0, 4, 8, 0, 4, 8, 12, 1, 5, 9, 13, 2, 6, 10, 14};
    static const uint8_t seconds[15] = {4, 8, 12, 1, 5, 9, 13, 2, 6, 10, 14, 3, 7, 11, 15};
    return d[firsts[step]] - d[seconds[step]] + 32;
}

/* The bytes of a cell of sixteen samples, 14 or 3 of them. */
static inline int b44_pack_cell(const uint16_t *s, uint8_t *b, int flat) {
    uint16_t t[16], d[16], most = 0;
    uint8_t r[15];
    for (int k = 0; k < 16; k++) {
        t[k] = (s[k] & 0x7c00) == 0x7c00 ? 0x8000 : s[k] & 0x8000 ? ~s[k] : s[k] | 0x8000;
        if (t[k] > most) most = t[k];
    }
    int shift = -1, least, greatest;
    do {
        shift++;
        for (int k = 0; k < 16; k++) {
            int x = (most - t[k]) << 1, a = (1 << shift) - 1, odd = x >> (shift + 1) & 1;
            d[k] = (x + a + odd) >> (shift + 1);
        }
        least = 63, greatest = 0;
        for (int k = 0; k < 15; k++) {
            int difference = b44_difference(k, d);
            if (difference < least) least = difference;
            if (difference > greatest) greatest = difference;
            r[k] = difference;
        }
    } while (least < 0 || greatest > 63);
    if (flat && least == 32 && greatest == 32) {
        b[0] = t[0] >> 8, b[1] = t[0], b[2] = 0xfc;
        return 3;
    }
    uint16_t first = most - (d[0] << shift);
    b[0] = first >> 8, b[1] = first;
    b[2] = shift << 2 | r[0] >> 4;
    b[3] = r[0] << 4 | r[1] >> 2;
    b[4] = r[1] << 6 | r[2];
    b[5] = r[3] << 2 | r[4] >> 4;
    b[6] = r[4] << 4 | r[5] >> 2;
    b[7] = r[5] << 6 | r[6];
    b[8] = r[7] << 2 | r[8] >> 4;
    b[9] = r[8] << 4 | r[9] >> 2;
    b[10] = r[9] << 6 | r[10];
    b[11] = r[11] << 2 | r[12] >> 4;
    b[12] = r[12] << 4 | r[13] >> 2;
    b[13] = r[13] << 6 | r[14];
    return 14;
}

/* The sixteen samples of a cell of 14 bytes. */
static inline void b44_unpack_cell(const uint8_t *b, uint16_t *s) {
    int shift = b[2] >> 2;
    uint32_t bias = 32u << shift;
    s[0] = b[0] << 8 | b[1];
    s[4] = s[0] + ((((uint32_t)b[2] << 4 | b[3] >> 4) & 63) << shift) - bias;
    s[8] = s[4] + ((((uint32_t)b[3] << 2 | b[4] >> 6) & 63) << shift) - bias;
    s[12] = s[8] + (((uint32_t)b[4] & 63) << shift) - bias;
    s[1] = s[0] + (((uint32_t)b[5] >> 2) << shift) - bias;
    s[5] = s[4] + ((((uint32_t)b[5] << 4 | b[6] >> 4) & 63) << shift) - bias;
    s[9] = s[8] + ((((uint32_t)b[6] << 2 | b[7] >> 6) & 63) << shift) - bias;
    s[13] = s[12] + (((uint32_t)b[7] & 63) << shift) - bias;
    s[2] = s[1] + (((uint32_t)b[8] >> 2) << shift) - bias;
    s[6] = s[5] + ((((uint32_t)b[8] << 4 | b[9] >> 4) & 63) << shift) - bias;
    s[10] = s[9] + ((((uint32_t)b[9] << 2 | b[10] >> 6) & 63) << shift) - bias;
    s[14] = s[13] + (((uint32_t)b[10] & 63) << shift) - bias;
    s[3] = s[2] + (((uint32_t)b[11] >> 2) << shift) - bias;
    s[7] = s[6] + ((((uint32_t)b[11] << 4 | b[12] >> 4) & 63) << shift) - bias;
    s[11] = s[10] + ((((uint32_t)b[12] << 2 | b[13] >> 6) & 63) << shift) - bias;
    s[15] = s[14] + (((uint32_t)b[13] & 63) << shift) - bias;
    for (int k = 0; k < 16; k++) s[k] = s[k] & 0x8000 ? s[k] & 0x7fff : ~s[k];
}

/* Packs raw lines into `packed`, which has room for 14 bytes a cell, and answers how many bytes there are. */
static inline size_t b44_pack(const uint8_t *raw, size_t width, size_t lines, size_t channels, uint8_t *packed, int flat) {
    uint8_t *to = packed;
    for (size_t c = 0; c < channels; c++)
        for (size_t y = 0; y < lines; y += 4)
            for (size_t x = 0; x < width; x += 4) {
                uint16_t s[16];
                for (size_t j = 0; j < 4; j++) {
                    size_t row = y + j < lines ? y + j : lines - 1;
                    for (size_t i = 0; i < 4; i++) {
                        size_t column = x + i < width ? x + i : width - 1;
                        memcpy(s + 4 * j + i, raw + 2 * ((row * channels + c) * width + column), 2);
                    }
                }
                to += b44_pack_cell(s, to, flat);
            }
    return to - packed;
}

/* Unpacks into raw lines, and answers whether the data is just that of all cells. */
static inline int b44_unpack(const uint8_t *packed, size_t size, size_t width, size_t lines, size_t channels, uint8_t *raw) {
    for (size_t c = 0; c < channels; c++)
        for (size_t y = 0; y < lines; y += 4)
            for (size_t x = 0; x < width; x += 4) {
                uint16_t s[16];
                if (size < 3) return 0;
                if (packed[2] >= 13 << 2) {
                    uint16_t value = packed[0] << 8 | packed[1];
                    value = value & 0x8000 ? value & 0x7fff : ~value;
                    for (int k = 0; k < 16; k++) s[k] = value;
                    packed += 3, size -= 3;
                } else {
                    if (size < 14) return 0;
                    b44_unpack_cell(packed, s);
                    packed += 14, size -= 14;
                }
                size_t wide = width - x < 4 ? width - x : 4, high = lines - y < 4 ? lines - y : 4;
                for (size_t j = 0; j < high; j++) memcpy(raw + 2 * (((y + j) * channels + c) * width + x), s + 4 * j, 2 * wide);
            }
    return size == 0;
}
