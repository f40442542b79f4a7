/* The wavelet in plain C: `wavelet_encode` and `wavelet_decode` in place, level by level, with pointers that move along the
   lines. Which pair step is taken is known in each copy of a level's loops. */
#pragma once
#include <stddef.h>
#include <stdint.h>

static inline void pair(int small, uint16_t a, uint16_t b, uint16_t *l, uint16_t *h) {
    if (small) {
        int first = (int16_t)a, second = (int16_t)b;
        *l = (first + second) >> 1;
        *h = first - second;
    } else {
        int moved = (a + 32768) & 65535;
        int mean = (moved + b) >> 1, difference = moved - b;
        if (difference < 0) mean = (mean + 32768) & 65535;
        *l = mean;
        *h = difference & 65535;
    }
}

static inline void back(int small, uint16_t l, uint16_t h, uint16_t *a, uint16_t *b) {
    if (small) {
        int mean = (int16_t)l, difference = (int16_t)h;
        int first = mean + (difference & 1) + (difference >> 1);
        *a = first;
        *b = first - difference;
    } else {
        int second = (l - (h >> 1)) & 65535;
        *b = second;
        *a = (h + second - 32768) & 65535;
    }
}

static inline __attribute__((always_inline)) void encode_level(uint16_t *words, size_t nx, size_t ny, size_t step, size_t p, int small) {
    size_t ox = step * p, oy = step * nx * p;
    uint16_t *line = words;
    for (size_t y = 0; y + 2 * p <= ny; y += 2 * p, line += 2 * oy) {
        uint16_t *px = line;
        size_t x = 0;
        for (; x + 2 * p <= nx; x += 2 * p, px += 2 * ox) {
            uint16_t i00, i01, i10, i11;
            pair(small, px[0], px[ox], &i00, &i01);
            pair(small, px[oy], px[ox + oy], &i10, &i11);
            pair(small, i00, i10, &px[0], &px[oy]);
            pair(small, i01, i11, &px[ox], &px[ox + oy]);
        }
        if (nx & p) pair(small, px[0], px[oy], &px[0], &px[oy]);
    }
    if (ny & p)
        for (size_t x = 0; x + 2 * p <= nx; x += 2 * p, line += 2 * ox) pair(small, line[0], line[ox], &line[0], &line[ox]);
}

static inline __attribute__((always_inline)) void decode_level(uint16_t *words, size_t nx, size_t ny, size_t step, size_t p, int small) {
    size_t ox = step * p, oy = step * nx * p;
    uint16_t *line = words;
    for (size_t y = 0; y + 2 * p <= ny; y += 2 * p, line += 2 * oy) {
        uint16_t *px = line;
        size_t x = 0;
        for (; x + 2 * p <= nx; x += 2 * p, px += 2 * ox) {
            uint16_t i00, i01, i10, i11;
            back(small, px[0], px[oy], &i00, &i10);
            back(small, px[ox], px[ox + oy], &i01, &i11);
            back(small, i00, i01, &px[0], &px[ox]);
            back(small, i10, i11, &px[oy], &px[ox + oy]);
        }
        if (nx & p) back(small, px[0], px[oy], &px[0], &px[oy]);
    }
    if (ny & p)
        for (size_t x = 0; x + 2 * p <= nx; x += 2 * p, line += 2 * ox) back(small, line[0], line[ox], &line[0], &line[ox]);
}

static inline void wavelet_encode(uint16_t *words, size_t nx, size_t ny, size_t step, uint16_t max) {
    size_t side = nx < ny ? nx : ny;
    for (size_t p = 1; 2 * p <= side; p *= 2)
        if (max < 16384) encode_level(words, nx, ny, step, p, 1);
        else encode_level(words, nx, ny, step, p, 0);
}

static inline void wavelet_decode(uint16_t *words, size_t nx, size_t ny, size_t step, uint16_t max) {
    size_t side = nx < ny ? nx : ny, p = 1;
    while (2 * p <= side) p *= 2;
    while (p > 1) {
        p /= 2;
        if (max < 16384) decode_level(words, nx, ny, step, p, 1);
        else decode_level(words, nx, ny, step, p, 0);
    }
}
