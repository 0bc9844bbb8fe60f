/* Prints which libraries some programs need. docs/LIBRARY.md has the same in Python and Rust.
 *
 *     cc -Ilibrary examples/first.c library/out/libelfsee.a -o first
 *     ./first /bin/ls
 */
#include <elfsee.h>
#include <stdio.h>
#include <stdlib.h>
#include <string.h>

/* The whole file, or NULL. */
static uint8_t *read_whole(const char *path, size_t *len) {
    FILE *from = fopen(path, "rb");
    long size = from && fseek(from, 0, SEEK_END) == 0 ? ftell(from) : -1;
    uint8_t *file = size < 0 ? NULL : malloc((size_t)size + 1);
    if (file) {
        rewind(from);
        *len = fread(file, 1, (size_t)size + 1, from);
        if (*len != (size_t)size || ferror(from)) { /* it changes, or cannot be read */
            free(file);
            file = NULL;
        }
    }
    if (from) fclose(from);
    return file;
}

/* Prints a name as a listing escapes it: nothing of it acts on a terminal. */
static void print_name(FILE *to, const uint8_t *name, size_t len) {
    for (size_t i = 0; i < len; i++)
        if (name[i] == '\\') fputs("\\\\", to);
        else if (name[i] >= 0x20 && name[i] < 0x7f) putc(name[i], to);
        else fprintf(to, "\\x%02x", name[i]);
}

static const struct elfsee_limits LIMITS = {.headers = 4096, .name = 256};

/* Prints which libraries a file needs; answers how the last call ended. */
static uint32_t print_needed(const uint8_t *file, size_t len, uint8_t *room, size_t room_len,
                             struct elfsee_end *end) {
    struct elfsee_header header = {0};
    uint32_t status = elfsee_header(file, len, &header, end);
    for (uint16_t index = 0; status == ELFSEE_OK && index < header.shnum; index++) {
        struct elfsee_rows rows = {0};
        struct elfsee_dynamic entry = {0};
        status = elfsee_dynamic(file, len, &LIMITS, index, room, room_len, &rows, end);
        if (status == ELFSEE_ABSENT) status = ELFSEE_OK; /* it holds no such rows */
        while (status == ELFSEE_OK && elfsee_next_dynamic(file, len, &rows, &entry, 1) == 1) {
            if (entry.tag != 1) continue;
            struct elfsee_range strings = {rows.strings_at, rows.strings_len}, name = {0, 0};
            status = elfsee_name(file, len, &strings, entry.value, &name, end);
            if (status != ELFSEE_OK) continue;
            print_name(stdout, file + name.at, name.len);
            putchar('\n');
        }
    }
    return status;
}

int main(int argc, char **argv) {
    int failed = 0;
    for (int i = 1; i < argc; i++) {
        size_t len = 0;
        uint8_t *file = read_whole(argv[i], &len);
        size_t room_len = file ? elfsee_room(file, len, LIMITS.headers) : 0;
        uint8_t *room = file ? malloc(room_len) : NULL;
        struct elfsee_end end = {0};
        if (!room || print_needed(file, len, room, room_len, &end) != ELFSEE_OK) {
            uint8_t word[32];
            int word_len = (int)elfsee_cause_word(end.cause, word, sizeof word);
            fputs("first: ", stderr);
            print_name(stderr, (const uint8_t *)argv[i], strlen(argv[i]));
            if (!room) fputs(": it cannot be read\n", stderr);
            else fprintf(stderr, ": %.*s at 0x%llx\n", word_len, (char *)word, (unsigned long long)end.at);
            failed = 1;
        }
        free(room);
        free(file);
    }
    return failed;
}
