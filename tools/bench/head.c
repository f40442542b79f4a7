/* The plain C twin of reading a head: each attribute of one header is copied into a hash map that grows twofold. The head's
   values are not judged. */
#include "twin.h"

struct attribute { char *name, *kind; uint8_t *value; uint32_t size; };
struct map { struct attribute *slots; size_t room, count; };

static uint64_t hash_of(const char *name) {
    uint64_t hash = 14695981039346656037u;
    for (; *name; name++) hash = (hash ^ (uint8_t)*name) * 1099511628211u;
    return hash ^ hash >> 29;
}

static struct attribute *slot_of(struct map *map, const char *name) {
    size_t at = hash_of(name) & (map->room - 1);
    while (map->slots[at].name && strcmp(map->slots[at].name, name)) at = (at + 1) & (map->room - 1);
    return &map->slots[at];
}

static void grow(struct map *map) {
    struct map larger = {calloc(2 * map->room, sizeof *map->slots), 2 * map->room, map->count};
    for (size_t k = 0; k < map->room; k++)
        if (map->slots[k].name) *slot_of(&larger, map->slots[k].name) = map->slots[k];
    free(map->slots);
    *map = larger;
}

static char *copy(const uint8_t *from, size_t size) { return memcpy(malloc(size), from, size); }

/* Where the text that begins at a place ends, at its zero. */
static size_t end_of(size_t at) {
    const uint8_t *end = memchr(file_bytes + at, 0, file_size - at < 256 ? file_size - at : 256);
    if (!end) exit(7);
    return end - file_bytes;
}

static void read_head(uint64_t *count, uint64_t *value_bytes) {
    struct map map = {calloc(16, sizeof *map.slots), 16, 0};
    size_t at = 8;
    *value_bytes = 0;
    for (;;) {
        size_t name_end = end_of(at), kind_end;
        if (name_end == at) break;
        kind_end = end_of(name_end + 1);
        const uint8_t *b = file_bytes + kind_end + 1;
        if (file_size - kind_end < 5) exit(7);
        uint32_t size = b[0] | b[1] << 8 | b[2] << 16 | (uint32_t)b[3] << 24;
        if (size > file_size - kind_end - 5) exit(7);
        char *name = copy(file_bytes + at, name_end + 1 - at);
        struct attribute *slot = slot_of(&map, name);
        if (slot->name) exit(7);
        *slot = (struct attribute){name, copy(file_bytes + name_end + 1, kind_end - name_end), (uint8_t *)copy(b + 4, size), size};
        *value_bytes += size;
        if (2 * ++map.count > map.room) grow(&map);
        at = kind_end + 5 + size;
    }
    *count = map.count;
    for (size_t k = 0; k < map.room; k++) free(map.slots[k].name), free(map.slots[k].kind), free(map.slots[k].value);
    free(map.slots);
}

static int run(const char *kernel) {
    if (strcmp(kernel, "head-read")) return 2;
    for (unsigned long turn = 0; turn < repeats; turn++) {
        uint64_t numbers[2];
        read_head(&numbers[0], &numbers[1]);
        for (int k = 0; k < 16; k++) add(numbers[k / 8] >> 8 * (k % 8) & 255);
    }
    return 0;
}
