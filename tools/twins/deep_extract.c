/* The plain loop that `exr extract` of a deep part is measured against: reads the head and the table of offsets, then each chunk
   in two reads, its sizes and its data, unpacks both parts of it where they are packed, adds its counts and each channel's
   samples to one list each, and writes the lists. The channels are A HALF and Z FLOAT, in scan lines.
   Use: deep_extract IN OUT HEAD_BYTES WIDTH HEIGHT */
#include "../bench/rle.h"
#include <fcntl.h>
#include <stdlib.h>
#include <string.h>
#include <unistd.h>

typedef struct { uint8_t *bytes; size_t len, room; } List;

static void add(List *list, const void *bytes, size_t count) {
    if (list->len + count > list->room) {
        list->room = 2 * (list->len + count);
        list->bytes = realloc(list->bytes, list->room);
    }
    memcpy(list->bytes + list->len, bytes, count);
    list->len += count;
}

static int write_all(int file, const uint8_t *bytes, size_t count) {
    while (count > 0) {
        ssize_t n = write(file, bytes, count);
        if (n <= 0) return 0;
        bytes += n, count -= (size_t)n;
    }
    return 1;
}

/* A part of a chunk: its data, unpacked into `room` where it is packed; `bytes` has as much room, for the unpacking. */
static const uint8_t *raw_of(const uint8_t *data, size_t stored, size_t size, uint8_t *bytes, uint8_t *room) {
    if (stored == size) return data;
    return rle_unpack_into(data, stored, bytes, room, size) ? room : 0;
}

int main(int argc, char **argv) {
    if (argc != 6) return 2;
    size_t head = strtoul(argv[3], 0, 10), width = strtoul(argv[4], 0, 10), height = strtoul(argv[5], 0, 10);
    int in = open(argv[1], O_RDONLY);
    uint8_t *first = malloc(head), *data = 0, *table_room = malloc(4 * width), *samples_room = 0, *bytes = malloc(4 * width);
    uint64_t *offsets = malloc(8 * height);
    size_t data_size = 0, samples_size = 0;
    List counts = {0}, alpha = {0}, depth = {0};
    if (pread(in, first, head, 0) != (ssize_t)head || pread(in, offsets, 8 * height, (off_t)head) != (ssize_t)(8 * height)) return 3;
    uint32_t *row = malloc(4 * width);
    for (size_t y = 0; y < height; y++) {
        uint8_t fields[28];
        if (pread(in, fields, 28, (off_t)offsets[y]) != 28) return 3;
        int32_t line;
        uint64_t sizes[3];
        memcpy(&line, fields, 4), memcpy(sizes, fields + 4, 24);
        if (line != (int32_t)y || sizes[0] > 4 * width || sizes[1] > sizes[2] || sizes[2] > 1 << 26) return 3;
        if (sizes[0] + sizes[1] > data_size) data = realloc(data, data_size = sizes[0] + sizes[1]);
        if (sizes[2] > samples_size) {
            samples_size = sizes[2];
            samples_room = realloc(samples_room, samples_size);
            bytes = realloc(bytes, samples_size > 4 * width ? samples_size : 4 * width);
        }
        if (pread(in, data, sizes[0] + sizes[1], (off_t)offsets[y] + 28) != (ssize_t)(sizes[0] + sizes[1])) return 3;
        const uint8_t *table = raw_of(data, sizes[0], 4 * width, bytes, table_room);
        const uint8_t *samples = raw_of(data + sizes[0], sizes[1], sizes[2], bytes, samples_room);
        if (!table || !samples) return 3;
        uint32_t before = 0;
        for (size_t x = 0; x < width; x++) {
            uint32_t sum;
            memcpy(&sum, table + 4 * x, 4);
            if (sum < before) return 3;
            row[x] = sum - before, before = sum;
        }
        if (sizes[2] != 6 * (uint64_t)before) return 3;
        add(&counts, row, 4 * width);
        add(&alpha, samples, 2 * (size_t)before);
        add(&depth, samples + 2 * (size_t)before, 4 * (size_t)before);
    }
    int out = open(argv[2], O_WRONLY | O_CREAT | O_TRUNC, 0666);
    return write_all(out, counts.bytes, counts.len) && write_all(out, alpha.bytes, alpha.len) && write_all(out, depth.bytes, depth.len) && close(out) == 0 ? 0 : 5;
}
