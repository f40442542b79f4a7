/* The plain C twin of exr_rle: `pack` and `unpack` of rle.h. */
#include "twin.h"
#include "rle.h"

static int run(const char *kernel) {
    if (!strcmp(kernel, "rle-pack")) {
        for (unsigned long turn = 0; turn < repeats; turn++) {
            size_t used;
            uint8_t *packed = rle_pack(file_bytes, file_size, &used);
            ADD_TURN(turn, packed, used);
            free(packed);
        }
        return 0;
    }
    if (!strcmp(kernel, "rle-unpack")) {
        size_t wanted = front_number();
        for (unsigned long turn = 0; turn < repeats; turn++) {
            uint8_t *raw = rle_unpack(file_bytes, file_size, wanted);
            if (!raw) return 7;
            ADD_TURN(turn, raw, wanted);
            free(raw);
        }
        return 0;
    }
    return 2;
}
