/* The plain C twin of exr_b44 on four HALF channels: `pack` and `unpack`, each giving a buffer of its own. */
#include "b44.h"
#include "twin.h"

static int run(const char *kernel) {
    int flat = !strncmp(kernel, "b44a-", 5);
    const char *way = kernel + (flat ? 5 : 4);
    size_t width = front_number(), lines = front_number(), raw_size = 8 * width * lines;
    if (!strcmp(way, "pack")) {
        if (file_size != raw_size) return 7;
        size_t cells = 4 * ((width + 3) / 4) * ((lines + 3) / 4);
        for (unsigned long turn = 0; turn < repeats; turn++) {
            uint8_t *packed = malloc(14 * cells + 1);
            size_t used = b44_pack(file_bytes, width, lines, 4, packed, flat);
            ADD_TURN(turn, packed, used);
            free(packed);
        }
        return 0;
    }
    if (!strcmp(way, "unpack")) {
        for (unsigned long turn = 0; turn < repeats; turn++) {
            uint8_t *raw = malloc(raw_size + 1);
            if (!b44_unpack(file_bytes, file_size, width, lines, 4, raw)) return 7;
            ADD_TURN(turn, raw, raw_size);
            free(raw);
        }
        return 0;
    }
    return 2;
}
