/* Prints what a loader's relocations change in each LOAD segment of an object, for x86-64, by what libraries define: the
 * segment's index, its size in memory, and how many of its bytes differ from the image without any symbol; then the
 * names that no library defines. Addresses are made up. docs/LIBRARY.md has the same in Python and Rust.
 *
 *     cc -Ilibrary examples/image.c library/out/libelfsee.a -o image
 *     ./image /bin/ls /lib/x86_64-linux-gnu/libc.so.6
 */
#include <elfsee.h>
#include <stdio.h>
#include <stdlib.h>

#define BASE UINT64_C(0x555555554000)
#define LIBRARIES UINT64_C(0x7ffff0000000)
#define LIBRARY_STEP UINT64_C(0x10000000)
#define WINDOW ((size_t)1 << 20)

static const struct elfsee_limits LIMITS = {.headers = 4096, .name = 256};

/* A file in memory, and room for its headers. */
struct opened {
    uint8_t *file, *room;
    size_t len, room_len;
};

static struct opened open_file(const char *path) {
    struct opened it = {0};
    FILE *from = fopen(path, "rb");
    long size = from && fseek(from, 0, SEEK_END) == 0 ? ftell(from) : -1;
    if (size >= 0 && (it.file = malloc((size_t)size + 1))) {
        rewind(from);
        it.len = fread(it.file, 1, (size_t)size, from);
        it.room_len = elfsee_room(it.file, it.len, LIMITS.headers);
        it.room = malloc(it.room_len);
    }
    if (from) fclose(from);
    return it;
}

static int by_key(const void *a, const void *b) {
    const struct elfsee_image_item *x = a, *y = b;
    if (x->kind != y->kind) return x->kind < y->kind ? -1 : 1;
    return x->key < y->key ? -1 : x->key > y->key;
}

/* The address of a name in the first library that defines it, or 0. */
static uint64_t address_of(const struct opened *libraries, int count, const uint8_t *name, size_t len) {
    for (int i = 0; i < count; i++) {
        struct elfsee_resolved found = {0};
        struct elfsee_end end = {0};
        uint32_t status = elfsee_look_up(libraries[i].file, libraries[i].len, &LIMITS, ELFSEE_BY_SEGMENTS, name, len,
                                         NULL, 0, libraries[i].room, libraries[i].room_len, &found, &end);
        if (status == ELFSEE_OK) return LIBRARIES + LIBRARY_STEP * (uint64_t)i + found.symbol.value;
    }
    return 0;
}

/* Looks up each symbol that an image lacks, and appends an item for each that is defined. Returns how many items there
 * are, with the first. */
static size_t bind_all(const struct opened *it, const struct opened *libraries, int count,
                       struct elfsee_image_item *items, size_t most, struct elfsee_end *end) {
    const struct elfsee_image_items none = {.partial = 1};
    struct elfsee_rows symbols = {0};
    struct elfsee_lacking rows[64] = {{0}};
    uint64_t index = 0, before = 0;
    size_t filled = 1;
    if (elfsee_hashed_symbols(it->file, it->len, &LIMITS, ELFSEE_BY_SEGMENTS, it->room, it->room_len, &symbols, end))
        return filled;
    while (elfsee_next_lacking(it->file, it->len, &LIMITS, &none, it->room, it->room_len, &index, rows, 64, end) == ELFSEE_OK) {
        for (uint64_t i = 0; i < index - before; i++) {
            struct elfsee_symbol symbol = {0};
            struct elfsee_rows at = symbols;
            struct elfsee_range strings = {symbols.strings_at, symbols.strings_len}, name = {0, 0};
            struct elfsee_end named = {0};
            at.index = rows[i].symbol;
            if (rows[i].symbol == 0 || elfsee_next_symbols(it->file, it->len, &at, &symbol, 1) != 1) continue;
            if (elfsee_name(it->file, it->len, &strings, symbol.name, &name, &named) != ELFSEE_OK) continue;
            uint64_t address = address_of(libraries, count, it->file + name.at, name.len);
            if (address && filled < most)
                items[filled++] = (struct elfsee_image_item){ELFSEE_IMAGE_SYMBOL, rows[i].symbol, address};
            else if (!address)
                printf("missing: %.*s\n", (int)name.len, (const char *)it->file + name.at);
        }
        before = index;
    }
    return filled;
}

/* The image of a segment, or NULL. */
static uint8_t *image_of(const struct opened *it, uint16_t segment, size_t size, const struct elfsee_image_item *items,
                         size_t count, struct elfsee_end *end) {
    const struct elfsee_image_items lent = {.numbers = items, .numbers_len = count, .partial = 1};
    uint8_t *window = malloc(WINDOW), *out = malloc(size + 1);
    uint32_t status = window && out ? elfsee_image(it->file, it->len, &LIMITS, segment, &lent, it->room, it->room_len, window,
                                                   WINDOW, out, size, end)
                                    : ELFSEE_FULL;
    free(window);
    if (status == ELFSEE_OK) return out;
    free(out);
    return NULL;
}

int main(int argc, char **argv) {
    struct opened *files = argc > 1 ? calloc((size_t)argc, sizeof *files) : NULL;
    struct elfsee_image_item *items = calloc(65536, sizeof *items);
    struct elfsee_end end = {0};
    struct elfsee_header header = {0};
    int failed = !files || !items;
    for (int i = 1; i < argc && !failed; i++) failed = !(files[i] = open_file(argv[i])).room;
    if (failed || elfsee_header(files[1].file, files[1].len, &header, &end) != ELFSEE_OK) return 1;
    items[0] = (struct elfsee_image_item){ELFSEE_IMAGE_BASE, 0, BASE};
    size_t filled = 1, count = bind_all(&files[1], files + 2, argc - 2, items, 65536, &end);
    qsort(items, count, sizeof *items, by_key);
    for (size_t i = 1; i < count; i++) /* some entries have the same symbol */
        if (items[i].key != items[filled - 1].key || filled == 1) items[filled++] = items[i];
    for (uint16_t index = 0; index < header.phnum; index++) {
        struct elfsee_segment segment = {0};
        if (elfsee_segment(files[1].file, files[1].len, index, &segment, &end) != ELFSEE_OK) return 1;
        if (segment.type != 1) continue;
        uint8_t *before = image_of(&files[1], index, segment.memsz, items, 1, &end);
        uint8_t *after = image_of(&files[1], index, segment.memsz, items, filled, &end);
        if (!before || !after) return 1;
        uint64_t changed = 0;
        for (uint64_t i = 0; i < segment.memsz; i++) changed += before[i] != after[i];
        printf("%u %llu %llu\n", index, (unsigned long long)segment.memsz, (unsigned long long)changed);
        free(before);
        free(after);
    }
    for (int i = 1; i < argc; i++) free(files[i].file), free(files[i].room);
    free(files);
    free(items);
    return 0;
}
