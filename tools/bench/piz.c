/* The plain C twin of exr_piz: the loops of piz.h, on channels of one kind. */
#include "twin.h"
#include "piz.h"

static int run(const char *kernel) {
    int packs = !strcmp(kernel, "piz-pack");
    if (!packs && strcmp(kernel, "piz-unpack")) return 2;
    PizShape s;
    s.wide = front_number(), s.high = front_number(), s.channels = front_number(), s.bytes = front_number();
    for (unsigned long turn = 0; turn < repeats; turn++) {
        size_t used = piz_raw_size(s);
        uint8_t *found = packs ? piz_pack(file_bytes, s, &used) : piz_unpack(file_bytes, file_size, s);
        if (!found) return 7;
        ADD_TURN(turn, found, used);
        free(found);
    }
    return 0;
}
