/* Writes a picture of scan lines to be measured: a given head, the table of offsets and the chunks. Its four HALF channels
   are smooth with a little grain; the method packs them as tools/bench has it.
   Use: picture OUT HEAD WIDTH HEIGHT METHOD, where HEAD is a file that holds the head, and METHOD is no, rle, piz or b44 */
#include "../bench/b44.h"
#include "../bench/piz.h"
#include "../bench/rle.h"
#include <math.h>
#include <stdio.h>

enum { CHANNELS = 4 };

/* The sample of a channel: the bits of a HALF between 0.25 and 1. */
static uint16_t sample(size_t x, size_t y, int channel) {
    double smooth = 0.5 + 0.25 * sin(x / 210.0 + channel) + 0.2 * cos(y / 90.0 + x / 800.0 + channel);
    uint32_t grain = (uint32_t)(x * 2654435761u ^ y * 40503u ^ channel * 69069u) * 1664525u;
    return channel ? 0x3400 + (uint16_t)(2000 * smooth) + (grain >> 29) : 0x3c00;
}

int main(int argc, char **argv) {
    if (argc != 6) return 2;
    size_t width = strtoul(argv[3], 0, 10), height = strtoul(argv[4], 0, 10);
    int is_rle = !strcmp(argv[5], "rle"), is_piz = !strcmp(argv[5], "piz"), is_b44 = !strcmp(argv[5], "b44");
    size_t lines = is_b44 || is_piz ? 32 : 1, chunks = (height + lines - 1) / lines, most = 2 * CHANNELS * width * lines;
    static uint8_t head[1 << 16];
    FILE *in = fopen(argv[2], "rb"), *out = fopen(argv[1], "wb");
    if (!in || !out) return 4;
    size_t front = fread(head, 1, sizeof head, in);
    uint64_t *table = calloc(chunks, 8), at = front + 8 * chunks;
    uint8_t *raw = malloc(most), *packed = malloc(2 * most + 64);
    fwrite(head, 1, front, out);
    fwrite(table, 8, chunks, out);
    for (size_t i = 0; i < chunks; i++) {
        size_t first = i * lines, count = height - first < lines ? height - first : lines, size = 2 * CHANNELS * width * count;
        for (size_t y = 0; y < count; y++)
            for (int c = 0; c < CHANNELS; c++)
                for (size_t x = 0; x < width; x++) {
                    uint16_t bits = sample(x, first + y, c);
                    memcpy(raw + 2 * ((y * CHANNELS + c) * width + x), &bits, 2);
                }
        const uint8_t *data = raw;
        size_t used = size;
        uint8_t *own = 0;
        if (is_rle) data = own = rle_pack(raw, size, &used);
        if (is_piz) data = own = piz_pack(raw, (PizShape){width, count, CHANNELS, 2}, &used);
        if (is_b44) used = b44_pack(raw, width, count, CHANNELS, packed, 0), data = packed;
        if (used >= size) data = raw, used = size;
        uint32_t fields[2] = {(uint32_t)first, (uint32_t)used};
        fwrite(fields, 4, 2, out);
        fwrite(data, 1, used, out);
        free(own);
        table[i] = at;
        at += 8 + used;
    }
    fseek(out, (long)front, SEEK_SET);
    fwrite(table, 8, chunks, out);
    return fclose(out) == 0 ? 0 : 5;
}
