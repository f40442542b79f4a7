/* What the C twins share with exr_bench: the words KERNEL FILE REPEATS, numbers of four bytes in front of a file's data,
   and the checksum. Each turn adds one value of its result, and the last turn all of them in its place. */
#include <stdint.h>
#include <stdio.h>
#include <stdlib.h>
#include <string.h>

static const uint8_t *file_bytes;
static size_t file_size;
static unsigned long repeats;
static uint64_t sum;

/* The next number of four bytes, little endian; the file's bytes then begin behind it. */
static uint32_t front_number(void) {
    if (file_size < 4) exit(7);
    const uint8_t *b = file_bytes;
    file_bytes += 4, file_size -= 4;
    return b[0] | b[1] << 8 | b[2] << 16 | (uint32_t)b[3] << 24;
}

static inline void add(uint64_t value) { sum = sum * 31 + value; }

#define ADD_TURN(turn, values, count)                                    \
    do {                                                                 \
        if ((turn) + 1 < repeats) {                                      \
            add((count) > 0 ? (values)[(turn) % (count)] : 0);           \
        } else {                                                         \
            for (size_t k_ = 0; k_ < (count); k_++) add((values)[k_]);   \
        }                                                                \
    } while (0)

/* Each twin names its kernels. */
static int run(const char *kernel);

int main(int argc, char **argv) {
    static uint8_t buffer[1 << 26];
    if (argc != 4) return 2;
    FILE *file = fopen(argv[2], "rb");
    if (!file) return 4;
    file_bytes = buffer, file_size = fread(buffer, 1, sizeof buffer, file);
    fclose(file);
    repeats = strtoul(argv[3], 0, 10);
    int status = run(argv[1]);
    if (status == 0) printf("%llu\n", (unsigned long long)sum);
    return status;
}
