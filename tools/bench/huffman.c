/* The plain C twin of exr_huffman::unpack and exr_packing::pack: the loops of huffman.h. */
#include "twin.h"
#include "huffman.h"

static int run(const char *kernel) {
    if (!strcmp(kernel, "huffman-pack")) {
        size_t size = file_size / 2;
        uint16_t *words = malloc(file_size + 1);
        memcpy(words, file_bytes, 2 * size);
        for (unsigned long turn = 0; turn < repeats; turn++) {
            size_t used;
            uint8_t *packed = huffman_pack(words, size, &used);
            ADD_TURN(turn, packed, used);
            free(packed);
        }
        free(words);
        return 0;
    }
    if (strcmp(kernel, "huffman-unpack")) return 2;
    size_t wanted = front_number();
    for (unsigned long turn = 0; turn < repeats; turn++) {
        uint16_t *words = malloc(2 * wanted + 1);
        if (!huffman_unpack(file_bytes, file_size, words, wanted)) return 7;
        ADD_TURN(turn, words, wanted);
        free(words);
    }
    return 0;
}
