/* Looks up a name in a shared library as a loader does, and prints the address of the definition if the
 * library's first page is at BASE, and its version:
 *
 *     lookup LIBRARY NAME[@VERSION] [BASE]
 *
 *     cc lookup.c $(pkg-config --cflags --libs elfsee) -o lookup
 *
 * A name alone finds a version that is not hidden, NAME@VERSION that version, and NAME@@VERSION that one if
 * it is the default.
 *
 * Status 0: found; 1: there is no such definition; 2: the library cannot be used, or the arguments are invalid. */
#include <elfsee.h>

#include <inttypes.h>
#include <stdio.h>
#include <stdlib.h>
#include <string.h>

static int fail(const char *path, const char *what) {
    fprintf(stderr, "lookup: %s: %s\n", path, what);
    return 2;
}

/* Reads a file into memory, so that what is looked into stays as it is. */
static uint8_t *read_file(const char *path, size_t *len) {
    FILE *file = fopen(path, "rb");
    uint8_t *bytes = NULL, *more;
    size_t room = 1 << 16, count = 1;
    for (*len = 0; file && count; *len += count, room *= 2) {
        more = realloc(bytes, room);
        if (!more) break;
        bytes = more;
        count = fread(bytes + *len, 1, room - *len, file);
    }
    if (file && !count && !ferror(file)) {
        fclose(file);
        return bytes;
    }
    if (file) fclose(file);
    free(bytes);
    return NULL;
}

/* Says why a library is refused: the cause and the offset in the file that is malformed. */
static int refuse(const char *path, const struct elfsee_end *end) {
    uint8_t word[32];
    int len = (int)elfsee_cause_word(end->cause, word, sizeof word);
    fprintf(stderr, "lookup: %s: %.*s at 0x%" PRIx64 "\n", path, len, (const char *)word, end->at);
    return 2;
}

/* Prints a name as a listing escapes it: nothing of it acts on a terminal. */
static void print_name(const uint8_t *name, size_t len) {
    for (size_t i = 0; i < len; i++)
        if (name[i] == '\\') printf("\\\\");
        else if (name[i] >= 0x20 && name[i] < 0x7f) putchar(name[i]);
        else printf("\\x%02x", name[i]);
}

/* The version of a definition that was found by its name alone. */
static void tell_version(const struct elfsee_resolved *found, const uint8_t *file) {
    if (found->version.len == 0) return;
    printf("its version is ");
    print_name(file + found->version.at, (size_t)found->version.len);
    printf(found->is_cut ? "..\n" : "\n");
}

/* The address of a definition, for a library that is loaded at a base. */
static void tell(const char *name, const struct elfsee_resolved *found, uint64_t base) {
    const struct elfsee_symbol *symbol = &found->symbol;
    uint64_t address = symbol->section == 0xfff1 /* SHN_ABS */ ? symbol->value : base + symbol->value;
    if ((symbol->info & 15) == 6 /* STT_TLS */) {
        printf("%s lies at 0x%" PRIx64 " of each thread's block\n", name, symbol->value);
    } else if ((symbol->info & 15) == 10 /* STT_GNU_IFUNC */) {
        printf("%s is what the function at 0x%" PRIx64 " answers\n", name, address);
    } else {
        printf("%s is at 0x%" PRIx64 ", %" PRIu64 " bytes\n", name, address, symbol->size);
    }
}

/* Returns how many bytes of a text come before its first @. */
static size_t name_len(const char *text) {
    const char *sign = strchr(text, '@');
    return sign ? (size_t)(sign - text) : strlen(text);
}

int main(int argc, char **argv) {
    const struct elfsee_limits limits = {65279, 0, 1, 1 << 26}; /* 64 MB are read at most */
    struct elfsee_resolved found = {{0, 0, 0, 0, 0, 0}, 0, 0, {0, 0}, 0, 0, 0, 0, 0, 0, 0, 0};
    struct elfsee_end end = {0, 0, 0, 0, 0};
    size_t len;
    if (argc < 3) return fail("usage", "lookup LIBRARY NAME[@VERSION] [BASE]");
    uint8_t *file = read_file(argv[1], &len);
    if (!file) return fail(argv[1], "it cannot be read");
    size_t room_len = (size_t)elfsee_room(file, len, limits.headers);
    uint8_t *room = malloc(room_len);
    if (!room) return fail(argv[1], "there is no memory for its headers");
    const char *name = argv[2], *version = name + name_len(name);
    int is_default = !strncmp(version, "@@", 2);
    version += is_default ? 2 : *version == '@';
    /* Section headers are not what a loader reads: those of an untrusted file may show other tables. */
    uint32_t flags = ELFSEE_BY_SEGMENTS | (is_default ? ELFSEE_DEFAULT_ONLY : 0);
    uint32_t status = elfsee_look_up(file, len, &limits, flags, (const uint8_t *)name, name_len(name),
                                     (const uint8_t *)version, strlen(version), room, room_len, &found, &end);
    if (status == ELFSEE_OK) {
        tell(name, &found, argc > 3 ? strtoull(argv[3], NULL, 0) : 0);
        tell_version(&found, file);
    }
    free(room);
    free(file);
    if (status == ELFSEE_OK) return 0;
    if (status == ELFSEE_REFUSED) return refuse(argv[1], &end);
    if (status == ELFSEE_BAD_CALL) return fail(name, "a name and a version have at most 4,096 bytes");
    printf("%s is not there\n", name);
    return 1;
}
