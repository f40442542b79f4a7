/* The plain loop that `exr extract` is measured against: reads the head and the table, then each chunk that the window meets in one
   read of its fields and its data, unpacks the data where it is packed, puts its samples into the buffer, whole rows by
   memcpy and pixels by two bytes a sample, and writes the buffer.
   Use: extract IN OUT HEAD_BYTES WIDTH HEIGHT CHANNELS TILE METHOD LAYOUT X0 Y0 X1 Y1, where TILE is 0 for scan lines, METHOD
   is no, rle, piz or b44, LAYOUT is planar, lines or pixels, and the window is X0 Y0 to X1 Y1, both included */
#include "../bench/b44.h"
#include "../bench/piz.h"
#include "../bench/rle.h"
#include <fcntl.h>
#include <unistd.h>

/* How many bytes were read: all of them, or as many as the file has. */
static size_t read_some(int file, unsigned char *bytes, size_t count, off_t at)
{
    size_t done = 0;
    while (done < count) {
        ssize_t n = pread(file, bytes + done, count - done, at + (off_t)done);
        if (n <= 0)
            break;
        done += (size_t)n;
    }
    return done;
}

static int read_all(int file, unsigned char *bytes, size_t count, off_t at)
{
    return read_some(file, bytes, count, at) == count;
}

static int write_all(int file, const unsigned char *bytes, size_t count)
{
    while (count > 0) {
        ssize_t n = write(file, bytes, count);
        if (n <= 0)
            return 0;
        bytes += n;
        count -= (size_t)n;
    }
    return 1;
}

static size_t least(size_t a, size_t b) { return a < b ? a : b; }
static size_t most(size_t a, size_t b) { return a > b ? a : b; }

int main(int argc, char **argv)
{
    if (argc != 14)
        return 2;
    size_t head = strtoul(argv[3], 0, 10), width = strtoul(argv[4], 0, 10), height = strtoul(argv[5], 0, 10),
           channels = strtoul(argv[6], 0, 10), tile = strtoul(argv[7], 0, 10);
    int is_rle = strcmp(argv[8], "rle") == 0, is_piz = strcmp(argv[8], "piz") == 0, is_b44 = strcmp(argv[8], "b44") == 0;
    int is_planar = strcmp(argv[9], "planar") == 0, is_lines = strcmp(argv[9], "lines") == 0;
    size_t x0 = strtoul(argv[10], 0, 10), y0 = strtoul(argv[11], 0, 10), x1 = strtoul(argv[12], 0, 10) + 1,
           y1 = strtoul(argv[13], 0, 10) + 1, w = x1 - x0, h = y1 - y0;
    size_t columns = tile ? tile : width, rows = tile ? tile : is_b44 || is_piz ? 32 : 1, front = tile ? 20 : 8;
    size_t across = (width + columns - 1) / columns, down = (height + rows - 1) / rows;
    int in = open(argv[1], O_RDONLY);
    uint64_t *table = malloc(8 * across * down);
    size_t most_raw = 2 * columns * rows * channels;
    unsigned char *first = malloc(head), *chunk = malloc(front + most_raw), *bytes = malloc(most_raw), *unpacked = malloc(most_raw);
    unsigned char *buffer = calloc(channels * h, 2 * w);
    if (in < 0 || !table || !first || !chunk || !bytes || !unpacked || !buffer || !read_all(in, first, head, 0)
        || !read_all(in, (unsigned char *)table, 8 * across * down, (off_t)head))
        return 4;
    for (size_t ty = y0 / rows; ty * rows < y1; ty++)
        for (size_t tx = x0 / columns; tx * columns < x1; tx++) {
            size_t x = tx * columns, y = ty * rows;
            size_t cw = least(columns, width - x), ch = least(rows, height - y), row = 2 * cw;
            size_t size = ch * channels * row, count = read_some(in, chunk, front + size, (off_t)table[ty * across + tx]);
            uint32_t fields[4] = {(uint32_t)y}, packed;
            if (tile) {
                fields[0] = (uint32_t)tx;
                fields[1] = (uint32_t)ty;
            }
            if (count < front || memcmp(chunk, fields, front - 4) != 0)
                return 3;
            memcpy(&packed, chunk + front - 4, 4);
            if (packed > size || packed > count - front)
                return 3;
            const unsigned char *raw = chunk + front;
            unsigned char *own = 0;
            if (packed < size && is_piz) {
                raw = own = piz_unpack(raw, packed, (PizShape){cw, ch, channels, 2});
                if (!own)
                    return 3;
            } else if (packed < size) {
                if (is_rle ? !rle_unpack_into(raw, packed, bytes, unpacked, size)
                           : !is_b44 || !b44_unpack(raw, packed, cw, ch, channels, unpacked))
                    return 3;
                raw = unpacked;
            }
            size_t left = most(x, x0), right = least(x + cw, x1), top = most(y, y0), bottom = least(y + ch, y1);
            for (size_t line = top; line < bottom; line++)
                for (size_t c = 0; c < channels; c++) {
                    const unsigned char *from = raw + ((line - y) * channels + c) * row + 2 * (left - x);
                    if (is_planar)
                        memcpy(buffer + 2 * ((c * h + line - y0) * w + left - x0), from, 2 * (right - left));
                    else if (is_lines)
                        memcpy(buffer + 2 * (((line - y0) * channels + c) * w + left - x0), from, 2 * (right - left));
                    else {
                        unsigned char *to = buffer + 2 * (((line - y0) * w + left - x0) * channels + c);
                        for (size_t k = 0; k < right - left; k++) {
                            to[2 * channels * k] = from[2 * k];
                            to[2 * channels * k + 1] = from[2 * k + 1];
                        }
                    }
                }
            free(own);
        }
    int out = open(argv[2], O_WRONLY | O_CREAT | O_TRUNC, 0666);
    if (out < 0 || !write_all(out, buffer, 2 * channels * w * h) || close(out) != 0)
        return 5;
    return 0;
}
