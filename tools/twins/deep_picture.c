/* Writes a deep picture of scan lines to be measured: a given head, the table of offsets and the chunks. Each pixel has 0 to 8
   samples of two channels, A HALF and Z FLOAT.
   Use: deep_picture OUT HEAD WIDTH HEIGHT METHOD, where HEAD is a file that holds the head, and METHOD is no or rle */
#include "../bench/rle.h"
#include <stdio.h>
#include <stdlib.h>
#include <string.h>

enum { MOST = 8 };

/* The number of samples of a pixel: even areas, and edges between them. */
static uint32_t count_of(size_t x, size_t y) { return (uint32_t)((x / 37 + y / 23 + (x * y) / 9001) % (MOST + 1)); }

/* A part of a chunk as it is stored: packed where that is smaller. */
static const uint8_t *stored(const uint8_t *raw, size_t size, int is_rle, size_t *used, uint8_t **own) {
    *own = is_rle ? rle_pack(raw, size, used) : 0;
    if (*own && *used < size) return *own;
    *used = size;
    return raw;
}

int main(int argc, char **argv) {
    if (argc != 6) return 2;
    size_t width = strtoul(argv[3], 0, 10), height = strtoul(argv[4], 0, 10);
    int is_rle = !strcmp(argv[5], "rle");
    static uint8_t head[1 << 16];
    FILE *in = fopen(argv[2], "rb"), *out = fopen(argv[1], "wb");
    if (!in || !out) return 4;
    size_t front = fread(head, 1, sizeof head, in);
    uint64_t *offsets = calloc(height, 8), at = front + 8 * height;
    uint32_t *table = malloc(4 * width);
    uint8_t *samples = malloc(6 * MOST * width);
    fwrite(head, 1, front, out);
    fwrite(offsets, 8, height, out);
    for (size_t y = 0; y < height; y++) {
        uint32_t sum = 0;
        for (size_t x = 0; x < width; x++) table[x] = sum += count_of(x, y);
        uint8_t *alpha = samples, *depth = samples + 2 * (size_t)sum;
        for (size_t x = 0; x < width; x++)
            for (uint32_t k = 0; k < count_of(x, y); k++) {
                uint16_t bits = (uint16_t)(0x3000 + 64 * k + (x + y) % 16);
                float z = 1.0f + (float)k * 0.5f + (float)(x / 8) * 0.01f;
                memcpy(alpha, &bits, 2), alpha += 2;
                memcpy(depth, &z, 4), depth += 4;
            }
        uint64_t sizes[3] = {0, 0, 6 * (uint64_t)sum};
        uint8_t *own_table, *own_samples;
        size_t table_used, samples_used;
        const uint8_t *a = stored((uint8_t *)table, 4 * width, is_rle, &table_used, &own_table);
        const uint8_t *b = stored(samples, sizes[2], is_rle, &samples_used, &own_samples);
        sizes[0] = table_used, sizes[1] = samples_used;
        int32_t line = (int32_t)y;
        fwrite(&line, 4, 1, out), fwrite(sizes, 8, 3, out);
        fwrite(a, 1, table_used, out), fwrite(b, 1, samples_used, out);
        free(own_table), free(own_samples);
        offsets[y] = at;
        at += 28 + table_used + samples_used;
    }
    fseek(out, (long)front, SEEK_SET);
    fwrite(offsets, 8, height, out);
    return fclose(out) == 0 ? 0 : 5;
}
