/* elfsee: lists ELF64 files, looks up names in them, applies relocations, writes segments as a loader leaves
 * them, and reads the rows of files and the members of archives, in buffers that the caller provides.
 *
 * WHAT IS PROMISED is proved: the contract of each function is in the crate elfsee_c, and the
 * comment on a function here says it in prose. For any bytes of a file and any numbers in the
 * structs, each call returns, reads nothing outside the bytes it was given, and writes nothing
 * outside the caller's buffers.
 *
 * WHAT A CALLER GUARANTEES, which nothing checks. For each call:
 *  - `file` points to `file_len` readable bytes, at most PTRDIFF_MAX, which nobody changes while the
 *    call runs: no other thread, and for a mapped file no other process. If a mapped file is
 *    truncated while the call runs, the process is ended (SIGBUS): read a file that may change into
 *    memory first.
 *  - `room`, `window` and `out` point to the stated number of writable bytes; these overlap neither each other,
 *    nor the file, nor a struct or a name that is passed. They need not be initialised.
 *  - Each pointer is not NULL and is aligned for its type. Only the arguments `file`, `room`, `out`, `name`
 *    and `names`, and the lists of an elfsee_layout and of elfsee_image_items, may be NULL, if their lengths are 0 (tested, not
 *    proved); another pointer in a struct may not.
 *  - Each struct that is passed is initialised, with any values, even one that is only written.
 *  - No call is made from a signal handler.
 *
 * Calls share nothing: any number of threads may call at once, each with its own room, out and
 * structs; the file's bytes may be shared. A call takes no lock, starts no thread, makes no system
 * call, allocates no memory and uses only the stack, less than 64 KiB of it, and with versions after
 * names less than 96 (measured by a test, not proved), and keeps no pointer after it returns.
 *
 * IN C++ each struct is also a type of the namespace elfsee, such as elfsee::header: some share their names
 * with a call, which hides them.
 *
 * ROOM has the headers of a file while a call runs, 64 bytes each; the calls that open rows write
 * nothing to it. A call allows as many headers as `limits` says, or as many as the room holds, whichever
 * is less; a file with more is refused with ELFSEE_TOO_MANY_HEADERS. elfsee_room returns how much is
 * needed so that no file is refused for lack of room.
 */
#ifndef ELFSEE_H
#define ELFSEE_H

#include <stddef.h>
#include <stdint.h>

#ifdef __cplusplus
#ifdef __GNUC__
#pragma GCC diagnostic push
#pragma GCC diagnostic ignored "-Wshadow" /* some structs share their names with calls */
#endif
extern "C" {
#endif

/* The result of a call. */
enum {
    ELFSEE_OK = 0,      /* listed, found, applied or read */
    ELFSEE_REFUSED = 1, /* the file is refused, or the read budget is exhausted */
    ELFSEE_ABSENT = 2,  /* there is no such name, or there are no more rows */
    ELFSEE_FULL = 3,    /* `out` has no room for all of it */
    ELFSEE_BAD_CALL = 4 /* a number is outside its range; nothing was read and nothing written */
};

/* The parts of a listing; other bits have no meaning. */
enum {
    ELFSEE_HEADER = 1, ELFSEE_SECTIONS = 2, ELFSEE_SEGMENTS = 4, ELFSEE_SYMBOLS = 8,
    ELFSEE_RELOCS = 16, ELFSEE_NOTES = 32, ELFSEE_DYNAMIC = 64, ELFSEE_ALL = 127,
    ELFSEE_VERSIONS = 128 /* only for elfsee_list with ELFSEE_GNU */
};

/* Why a file is refused; 0 is no cause. elfsee_cause_word has the words. */
enum {
    ELFSEE_SHORT = 1, ELFSEE_NOT_ELF, ELFSEE_BAD_CLASS, ELFSEE_BAD_DATA, ELFSEE_BAD_VERSION,
    ELFSEE_EXTENDED_NUMBERING, ELFSEE_TOO_MANY_HEADERS, ELFSEE_ENTRY_SIZE, ELFSEE_TABLE_OUTSIDE,
    ELFSEE_BAD_LINK, ELFSEE_NOT_STRINGS, ELFSEE_SIZE_NOT_WHOLE, ELFSEE_NAME_OUTSIDE,
    ELFSEE_NAME_UNENDED, ELFSEE_NOTE_CUT, ELFSEE_NO_HASH, ELFSEE_HASH_SHAPE, ELFSEE_HASH_INDEX,
    ELFSEE_HASH_CYCLE, ELFSEE_UNSUPPORTED, ELFSEE_OVERFLOW, ELFSEE_NOT_REL, ELFSEE_UNPLACED,
    ELFSEE_UNDEFINED, ELFSEE_PLACE_OUTSIDE, ELFSEE_SYMBOL_INDEX, ELFSEE_TOO_LONG, ELFSEE_BUDGET,
    ELFSEE_UNMAPPED, ELFSEE_VERSION_CUT = 32, ELFSEE_VERSION_INDEX, ELFSEE_THIN, ELFSEE_NOT_ARCHIVE,
    ELFSEE_MEMBER_CUT, ELFSEE_LOAD_OVERLAP, ELFSEE_RELR, ELFSEE_NOT_IMAGE, ELFSEE_LOAD_ALIGN,
    ELFSEE_REPEAT, ELFSEE_TABLE_WRITTEN
};

/* How much may be read and shown. */
struct elfsee_limits {
    uint16_t headers;    /* allowed section headers, and program headers: 1 to 65,279 */
    uint16_t name;       /* bytes of a name that a listing shows: 1 to 4,096; otherwise not used */
    uint32_t has_budget; /* 0: no read budget */
    uint64_t budget;     /* bytes that may be read, if there is a budget */
};

/* How a call ended. */
struct elfsee_end {
    uint64_t at;      /* the file offset that the refusal names, otherwise 0 */
    uint64_t written; /* bytes of `out` */
    uint64_t asked;   /* bytes of the file that were read, at most 2^64 - 1 */
    uint32_t cause;   /* of the refusal, otherwise 0 */
    uint32_t none;    /* 0 */
};

/* Returns the library's version, 0x00MMmmpp. */
uint32_t elfsee_version(void);

/* Writes the word of a cause, as in a listing's last line ("table-outside"), and returns how
 * many bytes it has, at most 32; 0 for a number that is not a cause, and if `out` has fewer.
 * No NUL is written. */
size_t elfsee_cause_word(uint32_t cause, uint8_t *out, size_t out_len);

/* Returns how many bytes of room a file needs if `headers` are allowed: 64 for each section header, or
 * for each program header, that its file header counts, whichever are more; at least 64 and at
 * most 64 * headers. 64 for bytes that have no file header. With that room, or more, each call
 * answers as with 64 * headers. */
uint64_t elfsee_room(const uint8_t *file, size_t file_len, uint16_t headers);

/* Returns how many bytes of a file of `file_len` bytes a listing with `limits->name` bytes of a name reads at
 * most, for any bytes, except for one with ELFSEE_NAME_VERSIONS; 2^64 - 1 if that is more, and if
 * a limit is outside its range. */
uint64_t elfsee_cost(uint64_t file_len, const struct elfsee_limits *limits);

/* Lists the parts of a file that `parts` selects.
 *  OK, REFUSED: out[0..end->written) is the whole listing of these bytes under these limits,
 *    byte for byte as defined; a refusal is its last line, and `cause` and `at` are the listing's
 *    first fault. If the listing costs more than the budget, the text may be a prefix
 *    of whole lines followed by the line of the budget.
 *  FULL: end->written == out_len, and `out` is a prefix of such a listing.
 *  BAD_CALL: exactly for limits outside their ranges, or room of less than 64 bytes.
 * Always: written <= out_len; `asked` is at most the listing's cost, and the budget. */
uint32_t elfsee_show(const uint8_t *file, size_t file_len, const struct elfsee_limits *limits,
                     uint16_t parts, uint8_t *room, size_t room_len, uint8_t *out, size_t out_len,
                     struct elfsee_end *end);

/* Which listing elfsee_list makes. A later version may have more fields after these. */
struct elfsee_listing {
    uint16_t parts; /* the sum of some parts */
    uint16_t flags; /* the sum of some of ELFSEE_BY_SEGMENTS, ELFSEE_GNU, ELFSEE_JSON and ELFSEE_NAME_VERSIONS */
};

/* Lists a file as elfsee_show does, in the style that `listing` selects. `listing_len` is its size:
 * sizeof(struct elfsee_listing) of the header with which the caller was compiled. So a caller
 * of a later header may use this library as long as the fields that it does not know are 0, and one of
 * this header a later library.
 *  OK, REFUSED, FULL: as for elfsee_show. With ELFSEE_BY_SEGMENTS tables are found by the program headers,
 *    with ELFSEE_GNU numbers defined by GNU have names too, with ELFSEE_JSON each line is an object, and
 *    with ELFSEE_NAME_VERSIONS the version of a symbol follows its name.
 *  BAD_CALL: exactly if elfsee_show would return it, and for a `listing_len` of less than 4, a byte of
 *    `listing` after the fourth that is not 0, flags that are none of these, ELFSEE_NAME_VERSIONS without
 *    ELFSEE_GNU, and parts of more than ELFSEE_ALL, or with ELFSEE_GNU of more than ELFSEE_ALL +
 *    ELFSEE_VERSIONS.
 * Always: written <= out_len; `asked` is at most the listing's cost, and the budget. */
uint32_t elfsee_list(const uint8_t *file, size_t file_len, const struct elfsee_limits *limits,
                     const struct elfsee_listing *listing, size_t listing_len, uint8_t *room,
                     size_t room_len, uint8_t *out, size_t out_len, struct elfsee_end *end);

/* A name: 1 to 4,096 bytes, without a NUL in it; none is needed after it. */
struct elfsee_text {
    const uint8_t *bytes;
    size_t len;
};

/* Lists a file as elfsee_list does, but only those rows whose name is one of `names`, as it is in the
 * file. `parts` is ELFSEE_SYMBOLS, ELFSEE_RELOCS or, with ELFSEE_GNU, ELFSEE_VERSIONS. The names are in
 * ascending byte order, as by memcmp, a prefix before what is longer; one may appear more than once. Without
 * a name no row is listed. With ELFSEE_NAME_VERSIONS a name is split at its first `@`: NAME matches each
 * version of the name, NAME@VERSION that version, and NAME@@VERSION that version if it is the default one.
 *  As many bytes of a name are compared as the longest of `names` has, at least 1; with
 *    ELFSEE_NAME_VERSIONS at least `limits->name`. A name of a row that has more is none of them.
 *  BAD_CALL: exactly if elfsee_list would return it, for other parts, a name of no bytes, of more than 4,096
 *    or with a NUL, one below the one before it, and with ELFSEE_NAME_VERSIONS for an empty name or version. */
uint32_t elfsee_list_names(const uint8_t *file, size_t file_len, const struct elfsee_limits *limits,
                           const struct elfsee_listing *listing, size_t listing_len,
                           const struct elfsee_text *names, size_t names_len, uint8_t *room,
                           size_t room_len, uint8_t *out, size_t out_len, struct elfsee_end *end);

/* A symbol, field by field (gABI, Symbol Table). */
struct elfsee_symbol {
    uint64_t value, size;
    uint32_t name; /* its offset in the string table */
    uint16_t section;
    uint8_t info, other;
};

/* Bytes of the file. */
struct elfsee_range {
    uint64_t at, len;
};

/* What a lookup found. */
struct elfsee_found {
    struct elfsee_symbol symbol;
    uint32_t index;   /* of the symbol, in its section */
    uint32_t steps;   /* names that were compared */
    uint16_t section; /* of symbols */
    uint16_t none;    /* 0 */
    uint32_t none_behind; /* 0 */
};

/* Looks up a name in the file's SysV hash table. Most files have only a GNU one, and are refused with
 * NO_HASH: elfsee_look_up uses either. The name has `name_len` bytes, at most 4,096, no NUL
 * in it and needs none after it.
 *  OK: the definition's symbol, its place, and the number of steps. ABSENT: there is none;
 *    `found->steps` names were compared. REFUSED: for `end->cause` at `end->at`.
 *  BAD_CALL: limits outside their ranges, room of less than 64 bytes, a name of more than 4,096.
 * `asked` is at most the lookup's cost, and the budget. */
uint32_t elfsee_find(const uint8_t *file, size_t file_len, const struct elfsee_limits *limits,
                     uint8_t *room, size_t room_len, const uint8_t *name, size_t name_len,
                     struct elfsee_found *found, struct elfsee_end *end);

/* How a loader's lookup, its symbols or a listing are found; the numbers add up. */
enum {
    ELFSEE_BY_SEGMENTS = 1, /* by the program headers, even if there are section headers */
    ELFSEE_DEFAULT_ONLY = 2, /* a lookup: the requested version must be the symbol's default one */
    ELFSEE_GNU = 4, /* a listing: with the names defined by GNU, and symbol versions */
    ELFSEE_JSON = 8, /* a listing: each line is a JSON object */
    ELFSEE_NAME_VERSIONS = 16 /* a listing with ELFSEE_GNU: a symbol's version follows its name */
};

/* What a loader's lookup found; if it found nothing, all 0 except `tried`. */
struct elfsee_resolved {
    struct elfsee_symbol symbol;
    uint64_t index; /* of the symbol, among the symbols */
    uint64_t tried; /* symbols that were tried: those of the name's hash in its chain */
    struct elfsee_range version; /* the name of its version; 0, 0 if it has none, and if a
                                    version was requested, which it then has */
    uint32_t has_version; /* 1: the file has versions of symbols; otherwise 0, as are the fields for one */
    uint32_t is_hidden;   /* 1: a name alone does not find the version; otherwise 0 */
    uint32_t is_cut;      /* 1: the version's name has more bytes than the 256 that are given; otherwise 0 */
    uint16_t section; /* of symbols; or the program header of the dynamic entries */
    uint16_t words;   /* the section of the symbols' versions; or that program header */
    uint16_t number;  /* of the version, below 32,768; 0 and 1 have no name */
    uint16_t none;        /* 0 */
    uint32_t none_behind; /* 0 */
};

/* Looks up a name as glibc's dynamic loader does, alone or with a version: the first symbol of the name's
 * chain, in the file's GNU hash table or otherwise in its SysV one, that has the name, is exported and whose
 * version matches. `flags` is the sum of some of ELFSEE_BY_SEGMENTS and ELFSEE_DEFAULT_ONLY. The name and
 * the version have at most 4,096 bytes each, no NUL in them and need none after them; a version of no bytes
 * is none, and then a symbol is found whose version is not hidden.
 *  OK: the definition's symbol, with its version. ABSENT: no symbol matches; `resolved->tried` were
 *    tried. REFUSED: for `end->cause` at `end->at`.
 *  BAD_CALL: limits outside their ranges, room of less than 64 bytes, flags of more than 3, a name or
 *    a version of more than 4,096.
 * The bytes of `version` are the name in the file as it is read: with ELFSEE_BY_SEGMENTS the
 * bytes 40 to 47 and 60 to 63, where a file header has the section headers, count as 0.
 * `asked` is at most the lookup's cost, and the budget. */
uint32_t elfsee_look_up(const uint8_t *file, size_t file_len, const struct elfsee_limits *limits,
                        uint32_t flags, const uint8_t *name, size_t name_len, const uint8_t *version,
                        size_t version_len, uint8_t *room, size_t room_len,
                        struct elfsee_resolved *resolved, struct elfsee_end *end);

/* What a layout gives an address for. */
enum {
    ELFSEE_SECTION = 0,
    ELFSEE_DEFINE = 1,
    ELFSEE_ENTRY = 2,
    ELFSEE_TABLE = 3,
    ELFSEE_THREAD = 4
};

/* An address: of a section (by `index`); or, by the symbol's name of 1 to 255 bytes without NUL, of
 * a symbol that the file does not define, or of a symbol's entry: in the procedure linkage table, in
 * the global offset table, or, for its offset from the thread pointer, in the global offset table. */
struct elfsee_item {
    uint64_t address;
    const uint8_t *name;
    size_t name_len;
    uint32_t kind;  /* ELFSEE_SECTION to ELFSEE_THREAD */
    uint32_t index; /* of the section, up to 65,535 */
};

/* A section, and the addresses of it and of what it refers to: at most 64 sections, 32
 * definitions and 32 entries of each kind, without duplicates. */
struct elfsee_job {
    const struct elfsee_item *items;
    size_t items_len;
    uint32_t section; /* its index, up to 65,535 */
    uint32_t none;    /* not used */
};

/* Writes a section's bytes with its relocations applied.
 *  OK: out[0..end->written) is the whole section as defined. REFUSED: for `end->cause` at
 *    `end->at`; nothing is promised about the contents of `out`, and `written` is 0.
 *  FULL: `out` has fewer bytes than the section.
 *  BAD_CALL: limits, the section or items outside their ranges, an item twice, room of less than 64
 *    bytes.
 * `asked` is at most the definition's cost, and the budget. */
uint32_t elfsee_apply(const uint8_t *file, size_t file_len, const struct elfsee_limits *limits,
                      const struct elfsee_job *job, uint8_t *room, size_t room_len, uint8_t *out,
                      size_t out_len, struct elfsee_end *end);

/* A LAYOUT OF ANY SIZE, in the caller's memory: a section, and a name of 1 to 255 bytes without NUL,
 * each with its address. */
struct elfsee_lent_section {
    uint16_t index;
    uint64_t address;
};

struct elfsee_lent_name {
    const uint8_t *name;
    size_t name_len;
    uint64_t address;
};

/* Addresses: of sections, in ascending order of their indexes; of symbols that the file does not define;
 * and of symbols' entries, in the procedure linkage table, in the global offset table, and, for their
 * offsets from the thread pointer, in the global offset table. Names are in ascending byte order, as by
 * memcmp, a prefix before what is longer. A list has no duplicates, and a list of length 0 may be NULL. */
struct elfsee_layout {
    const struct elfsee_lent_section *sections;
    size_t sections_len;
    const struct elfsee_lent_name *definitions;
    size_t definitions_len;
    const struct elfsee_lent_name *linkage;
    size_t linkage_len;
    const struct elfsee_lent_name *table;
    size_t table_len;
    const struct elfsee_lent_name *thread;
    size_t thread_len;
};

/* What a layout lacks if a section is refused in it; all 0 if no address would help. */
struct elfsee_missing {
    uint32_t helpful;    /* the sum of 1 << kind, ELFSEE_SECTION to ELFSEE_THREAD, of which one would help */
    uint32_t section;    /* the index of the section that needs an address, otherwise 0 */
    uint32_t relocation; /* the type of the relocation entry that is refused */
    uint32_t name_len;   /* bytes of its symbol's name: all, or the first 255 */
    uint32_t is_cut;     /* 1: the name has more; otherwise 0 */
    uint8_t name[256];
};

/* Writes a section's bytes with its relocations applied, as elfsee_apply does, in the caller's layout.
 *  OK, FULL: as for elfsee_apply. REFUSED: too; and `missing` says what would help, if an address
 *    would, and the budget has room to find that out: the headers, the entry, its symbol and the name.
 *  BAD_CALL: limits outside their ranges, room of less than 64 bytes, an index or a name that is not
 *    above the one before it in its list, a name of none or more than 255 bytes or with a NUL.
 * No item can name a symbol that has no name, or one that is cut. `asked` is at most the definition's
 * cost and that of finding out, and the budget. */
uint32_t elfsee_apply_lent(const uint8_t *file, size_t file_len, const struct elfsee_limits *limits,
                           uint16_t section, const struct elfsee_layout *layout, uint8_t *room,
                           size_t room_len, uint8_t *out, size_t out_len,
                           struct elfsee_missing *missing, struct elfsee_end *end);

/* What an item of an image says. Items are sorted by it, and then by their keys. */
enum {
    ELFSEE_IMAGE_BASE = 0,       /* the load address: an address in memory less that in the file */
    ELFSEE_IMAGE_DESCRIPTOR = 1, /* the first word of a static TLS descriptor */
    ELFSEE_IMAGE_SYMBOL = 2,     /* of a symbol: the address that it is bound to */
    ELFSEE_IMAGE_CALL = 3,       /* the same for calls, if that is another */
    ELFSEE_IMAGE_MODULE = 4,     /* of the object that it is bound in: the module id */
    ELFSEE_IMAGE_VALUE = 5,      /* its value in that object */
    ELFSEE_IMAGE_OFFSET = 6,     /* its offset from the thread pointer */
    ELFSEE_IMAGE_RESOLVER = 7    /* of a resolver: what it answers */
};

/* A number that an image depends on besides the file. Any numbers are permitted; what they do not
 * say is not known. */
struct elfsee_image_item {
    uint32_t kind;  /* ELFSEE_IMAGE_BASE to ELFSEE_IMAGE_RESOLVER */
    uint64_t key;   /* the index of a dynamic symbol, 0 for this object itself; of a resolver its address in
                       the file; otherwise 0 */
    uint64_t value;
};

/* The bytes of an object that a program copies: those of the object that the symbol is bound to. */
struct elfsee_copied {
    uint32_t index;  /* of the dynamic symbol */
    uint32_t digits; /* 0; otherwise `bytes` are hexadecimal digits, two for each byte */
    const uint8_t *bytes;
    size_t bytes_len;
};

/* What an image depends on besides the file: numbers, in ascending order of their kinds, those of one
 * kind by their keys; and copied objects, by their indexes. A list has no duplicates, and a list of
 * length 0 may be NULL. */
struct elfsee_image_items {
    const struct elfsee_image_item *numbers;
    size_t numbers_len;
    const struct elfsee_copied *copies;
    size_t copies_len;
    uint32_t partial; /* 1: an entry that lacks an item changes nothing, and a symbol that another object
                         may define lacks its item also if it is weak, or defined here; 0: the image is
                         refused */
    uint32_t none;    /* not used */
};

/* Writes the bytes that a LOAD segment, by its index, has in memory once a loader has relocated the file, an
 * executable or a shared object for x86-64: as many as its `memsz`. `room` has the headers meanwhile, and
 * `window`, of 16 bytes or more, a part of the segment: the entries are read once, and once more for each
 * window that they change, so a window of `memsz` bytes is the fastest.
 *  OK: out[0..end->written) is the segment. REFUSED: for `end->cause` at `end->at`, by the first
 *    check that fails, before a byte is written; nothing is promised about the contents of `out`, and
 *    `written` is 0. FULL: `out` has fewer bytes than the segment.
 *  BAD_CALL: exactly for limits outside their ranges, room of less than 64 bytes, a window of less than
 *    16, an item that is not above the one before it, and a `partial` of more than 1.
 * Always: written <= out_len. Which bytes are written is tested, not proved, and so is it that `asked` is at
 * most the budget. */
uint32_t elfsee_image(const uint8_t *file, size_t file_len, const struct elfsee_limits *limits,
                      uint16_t segment, const struct elfsee_image_items *items, uint8_t *room,
                      size_t room_len, uint8_t *window, size_t window_len, uint8_t *out,
                      size_t out_len, struct elfsee_end *end);

/* A relocation entry that lacks an item. */
struct elfsee_lacking {
    uint64_t at;     /* its file offset */
    uint64_t place;  /* its address in the file */
    uint32_t type;   /* of the relocation */
    uint32_t symbol; /* the index of its symbol */
    uint32_t cause;  /* ELFSEE_UNDEFINED: it lacks an item of its symbol; ELFSEE_UNPLACED: one of the file's */
    uint32_t none;   /* 0 */
};

/* Reads up to `out_len` next entries that lack an item, in the order in which a loader applies entries,
 * and adds to `index` how many there are in `out`. `index` is how many come before them: begin with 0.
 * Each call goes through the entries from the first, so an `out` with room for all is the fastest.
 *  OK: at least one. ABSENT: none is left, or `out` has no room. REFUSED: for `end->cause` at
 *    `end->at`, by the first check that fails, of the file or of an entry up to the last one in `out`.
 *    If it is not OK, `index` is unchanged.
 *  BAD_CALL: exactly for limits outside their ranges, room of less than 64 bytes, an item that is not
 *    above the one before it, and a `partial` of more than 1, which otherwise does not matter.
 * Which entries there are is tested, not proved. */
uint32_t elfsee_next_lacking(const uint8_t *file, size_t file_len,
                             const struct elfsee_limits *limits,
                             const struct elfsee_image_items *items, uint8_t *room, size_t room_len,
                             uint64_t *index, struct elfsee_lacking *out, size_t out_len,
                             struct elfsee_end *end);

/* The file header, field by field (gABI, ELF Header). */
struct elfsee_header {
    uint64_t entry, phoff, shoff;
    uint32_t version, flags;
    uint16_t type, machine, ehsize, phentsize, phnum, shentsize, shnum, shstrndx;
    uint8_t ident[16];
};

/* A section header, field by field (gABI, Sections). */
struct elfsee_section {
    uint64_t flags, addr, offset, size, addralign, entsize;
    uint32_t name, type, link, info;
};

/* A program header, field by field (gABI, Program Header). */
struct elfsee_segment {
    uint64_t offset, vaddr, paddr, filesz, memsz, align;
    uint32_t type, flags;
};

/* A relocation entry with its addend, field by field (gABI, Relocation). */
struct elfsee_relocation {
    uint64_t offset, info;
    int64_t addend;
};

/* A relocation entry without an addend, field by field (gABI, Relocation). */
struct elfsee_short_relocation {
    uint64_t offset, info;
};

/* A dynamic entry, field by field (gABI, Dynamic Section). */
struct elfsee_dynamic {
    int64_t tag;
    uint64_t value;
};

/* The version of a symbol (LSB, Symbol Versioning). */
struct elfsee_version_word {
    uint16_t number;    /* below 32,768; 0 and 1 have no name */
    uint16_t is_hidden; /* 1: a name alone does not find the symbol; otherwise 0 */
};

/* The type of a record of symbol versions. */
enum {
    ELFSEE_DEFINITION = 1, /* a version that the file defines */
    ELFSEE_FILE = 2,       /* a file of which it needs versions */
    ELFSEE_NEED = 3        /* a version that it needs of the preceding file */
};

/* A record of version definitions or needs, field by field (LSB, Symbol Versioning). A needed file has no
 * number, no flags and no hash: these are 0. */
struct elfsee_version_record {
    uint64_t at;       /* its file offset */
    uint64_t named_at; /* that of what holds the index of its name */
    uint32_t name;     /* its offset in the string table */
    uint32_t hash;
    uint16_t number;   /* with 32,768 added if the version is hidden */
    uint16_t flags;
    uint32_t kind;     /* ELFSEE_DEFINITION to ELFSEE_NEED */
};

/* Reads the file header. OK, or REFUSED if its checks fail. */
uint32_t elfsee_header(const uint8_t *file, size_t file_len, struct elfsee_header *header,
                       struct elfsee_end *end);

/* Reads a section header or a program header, by its index. OK; ABSENT if there is none of that index;
 * REFUSED if the checks of the file header, or of the range of the headers, fail: for segments too, those of
 * the section headers. In a private mapping, zeros at 40 to 47 and at 60 to 63 of the file leave these out. */
uint32_t elfsee_section(const uint8_t *file, size_t file_len, uint16_t index,
                        struct elfsee_section *section, struct elfsee_end *end);
uint32_t elfsee_segment(const uint8_t *file, size_t file_len, uint16_t index,
                        struct elfsee_segment *segment, struct elfsee_end *end);

/* Finds where the bytes of a section are in the file, by its index: within it. OK; ABSENT if there is none
 * of that index or its type is NOBITS or NULL, which has no bytes in the file; REFUSED if
 * elfsee_section is, and with ELFSEE_TABLE_OUTSIDE at the section header if they extend past the end of
 * the file. If it is not OK, `range` is unchanged. `asked` is 0. */
uint32_t elfsee_section_bytes(const uint8_t *file, size_t file_len, uint16_t index,
                              struct elfsee_range *range, struct elfsee_end *end);

/* A table, and a position in it. Plain numbers on the caller's own stack: any may be passed, and a
 * caller may set them; a step checks them. Of a table without rows only the type is checked: then `at` is
 * the offset in its header, `strings_at` the same or 0, and both may be outside the file;
 * `strings_len` is 0. */
struct elfsee_rows {
    uint64_t at, count, index, entry; /* the entries that are left are [index, count) */
    uint64_t strings_at, strings_len; /* of the string table that goes with it; otherwise 0, 0 */
};

/* Open the symbols of a section, its relocation entries with addends, or its dynamic entries up to and
 * including the first with tag 0. Each runs the checks that a listing runs before the table's first row,
 * and sets `rows` before that row; of the limits it uses only `headers`. OK, REFUSED,
 * BAD_CALL; ABSENT if there is no such section or it holds no such rows. `asked` is 0. The headers
 * are read in place, no more than five, however many there are: nothing is written to `room`,
 * which any number of these calls may share, also at once. */
uint32_t elfsee_symbols(const uint8_t *file, size_t file_len, const struct elfsee_limits *limits,
                        uint16_t section, uint8_t *room, size_t room_len, struct elfsee_rows *rows,
                        struct elfsee_end *end);
uint32_t elfsee_relocations(const uint8_t *file, size_t file_len,
                            const struct elfsee_limits *limits, uint16_t section, uint8_t *room,
                            size_t room_len, struct elfsee_rows *rows, struct elfsee_end *end);
uint32_t elfsee_dynamic(const uint8_t *file, size_t file_len, const struct elfsee_limits *limits,
                        uint16_t section, uint8_t *room, size_t room_len, struct elfsee_rows *rows,
                        struct elfsee_end *end);

/* Opens the symbols of the file's hash table, among which a loader looks up names, even if there are no
 * section headers: found as elfsee_look_up finds them, with ELFSEE_BY_SEGMENTS or 0 as `flags`, and
 * counted by the hash table; if a GNU one contains no symbol and its first is 1, which says nothing, they
 * are those before their strings. `rows` is set before symbol 0, and elfsee_next_symbols reads them. `room`
 * has the headers meanwhile.
 *  OK, REFUSED; BAD_CALL for limits outside their ranges, room of less than 64 bytes, and other flags.
 * `asked` is at most what finding and counting them cost, and the budget. */
uint32_t elfsee_hashed_symbols(const uint8_t *file, size_t file_len, const struct elfsee_limits *limits,
                               uint32_t flags, uint8_t *room, size_t room_len, struct elfsee_rows *rows,
                               struct elfsee_end *end);

/* The tables of relocations that dynamic entries locate, in the order in which a loader applies them. */
enum {
    ELFSEE_AT_RELR = 0,  /* relative relocations */
    ELFSEE_AT_REL = 1,   /* entries without addends */
    ELFSEE_AT_RELA = 2,  /* entries with addends */
    ELFSEE_AT_JMPREL = 3 /* those of the procedure linkage table, with addends or without */
};

/* Opens a table of relocations that the file's dynamic entries locate, ELFSEE_AT_RELR to ELFSEE_AT_JMPREL, by the
 * program headers alone: runs the checks that a listing of a file without section headers runs up to the first
 * row, and sets `rows` before it. `rows->entry` says which rows they are: 24 bytes for
 * elfsee_next_relocations, 16 for elfsee_next_short_relocations, 8 for elfsee_next_relative_words. `rows`
 * has no string table: the symbols that they refer to are those of elfsee_hashed_symbols with
 * ELFSEE_BY_SEGMENTS. `room` has the headers meanwhile.
 *  OK, REFUSED; ABSENT if they locate no such table, or an empty one, or there are none; BAD_CALL for
 *    limits outside their ranges, room of less than 64 bytes, and another table.
 * The table at ELFSEE_AT_JMPREL may lie in that at ELFSEE_AT_RELA. `asked` is at most what finding it costs, and the
 * budget. */
uint32_t elfsee_located_relocations(const uint8_t *file, size_t file_len,
                                    const struct elfsee_limits *limits, uint32_t table,
                                    uint8_t *room, size_t room_len, struct elfsee_rows *rows,
                                    struct elfsee_end *end);

/* Opens the version words of the symbols of a section, as those calls open their rows: one for each symbol
 * of the table that it links to, as far as it has words, in the same order. `rows` has no string table: the
 * name of a version is that of the first definition, or else of the first needed version, that has its
 * number (elfsee_version_records). A definition with the flag 1 names the file and no version. */
uint32_t elfsee_version_words(const uint8_t *file, size_t file_len,
                              const struct elfsee_limits *limits, uint16_t section, uint8_t *room,
                              size_t room_len, struct elfsee_rows *rows, struct elfsee_end *end);

/* Opens the dynamic entries of a segment, up to and including the first with tag 0: checks that they are
 * whole entries within the file, and sets `rows` before the first. OK; ABSENT if there is none of that
 * index or its type is not DYNAMIC; REFUSED if elfsee_segment is, and with ELFSEE_SIZE_NOT_WHOLE or
 * ELFSEE_TABLE_OUTSIDE at the program header. `rows` has no string table: elfsee_mapped finds the one
 * whose address and size the entries with the tags STRTAB (5) and STRSZ (10) have. `asked`
 * is 0. */
uint32_t elfsee_segment_dynamic(const uint8_t *file, size_t file_len, uint16_t segment,
                                struct elfsee_rows *rows, struct elfsee_end *end);

/* Read up to `out_len` next rows, step over them, and return how many there are in `out`: fewer
 * than `out_len` at the end of the table, and 0 after it or if the numbers of `rows` name no rows of
 * the file. */
size_t elfsee_next_symbols(const uint8_t *file, size_t file_len, struct elfsee_rows *rows,
                           struct elfsee_symbol *out, size_t out_len);
size_t elfsee_next_relocations(const uint8_t *file, size_t file_len, struct elfsee_rows *rows,
                               struct elfsee_relocation *out, size_t out_len);
size_t elfsee_next_dynamic(const uint8_t *file, size_t file_len, struct elfsee_rows *rows,
                           struct elfsee_dynamic *out, size_t out_len);

size_t elfsee_next_version_words(const uint8_t *file, size_t file_len, struct elfsee_rows *rows,
                                 struct elfsee_version_word *out, size_t out_len);

/* The same for relocation entries without addends, and for the words of relative relocations. An even word is
 * the address of a relocation. In an odd one, the bit i of 1 to 63 is set if there is a relocation
 * 8 * (i - 1) bytes after the first address that the words before it do not cover: the one after an even word
 * is 8 more than the word, and a word of bits covers 504 bytes. */
size_t elfsee_next_short_relocations(const uint8_t *file, size_t file_len, struct elfsee_rows *rows,
                                     struct elfsee_short_relocation *out, size_t out_len);
size_t elfsee_next_relative_words(const uint8_t *file, size_t file_len, struct elfsee_rows *rows,
                                  uint64_t *out, size_t out_len);

/* A position in a walk over the records of version definitions or needs: plain numbers, like those of
 * elfsee_rows. If `size` is 0, `at` may be outside the file. */
struct elfsee_version_records {
    uint64_t at, size;    /* of the table */
    uint64_t place;       /* of the next record, in the table */
    uint64_t from;        /* the file offset of what led there, which a refusal names */
    uint64_t owner;       /* the place of the needed file, if a version of it is next */
    uint64_t left;        /* records that may still be read */
    uint64_t strings_at, strings_len; /* of the string table of their names */
    uint32_t kind;        /* of the next record; any other number: there is none */
    uint32_t none;        /* 0 */
};

/* Opens the version definitions of a section, or its needs: runs the checks that a listing runs before the
 * first record, and sets `records` before it. Of the limits it uses only `headers`. OK, REFUSED,
 * BAD_CALL; ABSENT if there is no such section or its type is neither GNU_verdef nor GNU_verneed.
 * `asked` is 0, and nothing is written to `room`. */
uint32_t elfsee_version_records(const uint8_t *file, size_t file_len,
                                const struct elfsee_limits *limits, uint16_t section,
                                const uint8_t *room, size_t room_len,
                                struct elfsee_version_records *records, struct elfsee_end *end);

/* Reads the next record and steps over it, in the order in which they lead to one another: of the needs
 * each file, and then its versions. OK; ABSENT after the last; REFUSED with ELFSEE_VERSION_CUT,
 * ELFSEE_BAD_VERSION or ELFSEE_VERSION_INDEX if there is no record where one should be. If it is not OK,
 * `records` is unchanged. Each OK decreases `left` by one, so a walk ends. `asked` is 0. */
uint32_t elfsee_next_version_record(const uint8_t *file, size_t file_len,
                                    struct elfsee_version_records *records,
                                    struct elfsee_version_record *record, struct elfsee_end *end);

/* ROWS WITHIN A BUDGET. Many tables may be at the same bytes, so the rows of a file may be far more than its
 * bytes. `asked` is a number of the caller's, which adds up how many bytes all calls that are passed it
 * read: begin with 0. If `limits` has a budget, `asked` never exceeds it, unless it did before: a call
 * that would make it do so is refused with ELFSEE_BUDGET. Without a budget it is only counted, up to
 * 2^64 - 1. Names are not counted.
 *
 * Open the dynamic entries of a section or of a segment, as elfsee_dynamic and elfsee_segment_dynamic do:
 * each entry up to and including the first with tag 0 counts 16 bytes. If they are more than the budget has
 * left, as many as it has room for are counted, and the refusal is at the next one. The second call uses
 * only the budget of the limits. */
uint32_t elfsee_dynamic_within(const uint8_t *file, size_t file_len,
                               const struct elfsee_limits *limits, uint16_t section,
                               const uint8_t *room, size_t room_len, uint64_t *asked,
                               struct elfsee_rows *rows, struct elfsee_end *end);
uint32_t elfsee_segment_dynamic_within(const uint8_t *file, size_t file_len,
                                       const struct elfsee_limits *limits, uint16_t segment,
                                       uint64_t *asked, struct elfsee_rows *rows,
                                       struct elfsee_end *end);

/* Read the next rows, as elfsee_next_symbols and the like do, and no more than the budget has left: a
 * symbol or a relocation entry counts 24 bytes, a dynamic entry 16, a version word 2. If the budget
 * ended it, `end` has ELFSEE_BUDGET and the offset of the next row; otherwise its cause is 0. Of the limits
 * only the budget is used. */
size_t elfsee_next_symbols_within(const uint8_t *file, size_t file_len,
                                  const struct elfsee_limits *limits, uint64_t *asked,
                                  struct elfsee_rows *rows, struct elfsee_symbol *out,
                                  size_t out_len, struct elfsee_end *end);
size_t elfsee_next_relocations_within(const uint8_t *file, size_t file_len,
                                      const struct elfsee_limits *limits, uint64_t *asked,
                                      struct elfsee_rows *rows, struct elfsee_relocation *out,
                                      size_t out_len, struct elfsee_end *end);
size_t elfsee_next_dynamic_within(const uint8_t *file, size_t file_len,
                                  const struct elfsee_limits *limits, uint64_t *asked,
                                  struct elfsee_rows *rows, struct elfsee_dynamic *out,
                                  size_t out_len, struct elfsee_end *end);

size_t elfsee_next_version_words_within(const uint8_t *file, size_t file_len,
                                        const struct elfsee_limits *limits, uint64_t *asked,
                                        struct elfsee_rows *rows, struct elfsee_version_word *out,
                                        size_t out_len, struct elfsee_end *end);

/* A position in a table of notes: plain numbers, like those of elfsee_rows. If `left` is 0, `at` may be
 * outside the file. */
struct elfsee_notes {
    uint64_t at, left; /* the file offset of the next note; bytes of the table starting there */
    uint64_t align;    /* of the notes: 8, and for any other number 4 */
    uint32_t header;   /* the index of the header that describes the table */
    uint32_t none;     /* 0 */
};

/* A note (gABI, Note Section). Its bytes are in the file: `namesz` of its name at `name_at`,
 * with any NUL, and `descsz` of its descriptor at `desc_at`. */
struct elfsee_note {
    uint64_t at, name_at, desc_at;
    uint32_t namesz, descsz, type;
    uint32_t header; /* the index of the header that describes its table */
};

/* Open the notes of a section, or of a segment: set `notes` before the first. OK; ABSENT if there is
 * none of that index or its type is not NOTE; REFUSED if elfsee_section or elfsee_segment is, and
 * with ELFSEE_TABLE_OUTSIDE if the notes extend past the end of the file. `asked` is 0. */
uint32_t elfsee_notes(const uint8_t *file, size_t file_len, uint16_t section,
                      struct elfsee_notes *notes, struct elfsee_end *end);
uint32_t elfsee_segment_notes(const uint8_t *file, size_t file_len, uint16_t segment,
                              struct elfsee_notes *notes, struct elfsee_end *end);

/* Reads the next note and steps over it, by at least 12 bytes. OK; ABSENT after the last; REFUSED
 * with ELFSEE_NOTE_CUT at `notes->at` if there is no note there. If it is not OK, `notes` is unchanged.
 * The name and the descriptor of an OK are within the file, for any numbers of `notes`. */
uint32_t elfsee_next_note(const uint8_t *file, size_t file_len, struct elfsee_notes *notes,
                          struct elfsee_note *note, struct elfsee_end *end);

/* A position in a walk over the members of an archive, such as a static library: plain numbers, like those
 * of elfsee_rows. */
struct elfsee_members {
    uint64_t at;               /* the file offset of the next member's header */
    struct elfsee_range names; /* the data of the table of names, if it was passed */
    uint32_t has_names;        /* 0: it was not */
    uint32_t none;             /* 0 */
};

/* A member of an archive. Its bytes are in the file: `content` is its data, which may be passed to
 * each call as a file of its own; and `name` its name, or the first 4,096 bytes of it. If the name
 * is at the beginning of the data, as BSD's `ar` writes it, `content` begins after it. */
struct elfsee_member {
    uint64_t at; /* the file offset of its header */
    struct elfsee_range content, name;
    uint32_t is_cut; /* 1: its name has more bytes; otherwise 0 */
    uint32_t none;   /* 0 */
};

/* Opens the members of an archive: sets `members` before the first. OK; REFUSED with ELFSEE_SHORT,
 * ELFSEE_THIN or ELFSEE_NOT_ARCHIVE at 0 if the file is no archive. `asked` is 0. */
uint32_t elfsee_members(const uint8_t *file, size_t file_len, struct elfsee_members *members,
                        struct elfsee_end *end);

/* Reads the next member and steps over it, by at least 60 bytes. The index of symbols, with the name
 * `/`, and the table of names, `//`, are members too. OK; ABSENT at the end of the file; REFUSED with
 * ELFSEE_MEMBER_CUT, ELFSEE_NAME_OUTSIDE or ELFSEE_NAME_UNENDED at `members->at` if there is no member
 * there, or its name is malformed. If it is not OK, `members` is unchanged. The data and the name
 * of an OK are within the file, for any numbers of `members`. At most 4,098 bytes of a name
 * are read. `asked` is 0. */
uint32_t elfsee_next_member(const uint8_t *file, size_t file_len, struct elfsee_members *members,
                            struct elfsee_member *member, struct elfsee_end *end);

/* Finds where the name at an offset in a string table is, without its NUL: the table is the `strings`
 * of `rows`, or any range of the file, as far as it is in the file. In a table that has no bytes there
 * the name at 0 has none, and `name` is 0, 0. OK, and then the name is within the file; REFUSED with
 * ELFSEE_NAME_OUTSIDE or ELFSEE_NAME_UNENDED if there is no name. */
uint32_t elfsee_name(const uint8_t *file, size_t file_len, const struct elfsee_range *strings,
                     uint64_t offset, struct elfsee_range *name, struct elfsee_end *end);

/* Finds where `size` bytes at an address are in the file, by the first LOAD program header that holds
 * them all among the bytes that it has in the file. OK; ABSENT if none does; REFUSED if
 * elfsee_segment is, and with ELFSEE_TABLE_OUTSIDE at that program header if they extend past the end of
 * the file. `asked` is 0. */
uint32_t elfsee_mapped(const uint8_t *file, size_t file_len, uint64_t address, uint64_t size,
                       struct elfsee_range *range, struct elfsee_end *end);

/* Finds where the string table of section headers' names is. OK, ABSENT, REFUSED, BAD_CALL. Nothing is
 * written to `room`. */
uint32_t elfsee_section_names(const uint8_t *file, size_t file_len,
                              const struct elfsee_limits *limits, uint8_t *room, size_t room_len,
                              struct elfsee_range *strings, struct elfsee_end *end);

#ifdef __cplusplus
}
#ifdef __GNUC__
#pragma GCC diagnostic pop
#endif

/* The structs' names for C++, in which `elfsee_header` is the call and not the struct. */
namespace elfsee {
typedef struct ::elfsee_limits limits;
typedef struct ::elfsee_end end;
typedef struct ::elfsee_listing listing;
typedef struct ::elfsee_text text;
typedef struct ::elfsee_symbol symbol;
typedef struct ::elfsee_range range;
typedef struct ::elfsee_found found;
typedef struct ::elfsee_resolved resolved;
typedef struct ::elfsee_item item;
typedef struct ::elfsee_job job;
typedef struct ::elfsee_lent_section lent_section;
typedef struct ::elfsee_lent_name lent_name;
typedef struct ::elfsee_layout layout;
typedef struct ::elfsee_missing missing;
typedef struct ::elfsee_image_item image_item;
typedef struct ::elfsee_copied copied;
typedef struct ::elfsee_image_items image_items;
typedef struct ::elfsee_lacking lacking;
typedef struct ::elfsee_header header;
typedef struct ::elfsee_section section;
typedef struct ::elfsee_segment segment;
typedef struct ::elfsee_relocation relocation;
typedef struct ::elfsee_short_relocation short_relocation;
typedef struct ::elfsee_dynamic dynamic;
typedef struct ::elfsee_version_word version_word;
typedef struct ::elfsee_version_record version_record;
typedef struct ::elfsee_rows rows;
typedef struct ::elfsee_version_records version_records;
typedef struct ::elfsee_notes notes;
typedef struct ::elfsee_note note;
typedef struct ::elfsee_members members;
typedef struct ::elfsee_member member;
}
#endif

#endif
