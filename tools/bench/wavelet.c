/* The plain C twin of exr_wavelet: the loops of wavelet.h on one plane. */
#include "twin.h"
#include "wavelet.h"

static int run(const char *kernel) {
    int encodes = !strcmp(kernel, "wavelet-encode");
    if (!encodes && strcmp(kernel, "wavelet-decode")) return 2;
    size_t nx = front_number(), ny = front_number();
    uint16_t max = front_number();
    size_t count = file_size / 2;
    if (count != nx * ny) return 7;
    uint16_t *words = malloc(2 * count + 1);
    for (unsigned long turn = 0; turn < repeats; turn++) {
        memcpy(words, file_bytes, 2 * count);
        if (encodes) wavelet_encode(words, nx, ny, 1, max);
        else wavelet_decode(words, nx, ny, 1, max);
        ADD_TURN(turn, words, count);
    }
    free(words);
    return 0;
}
