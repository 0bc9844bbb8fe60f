/* Cases of bounds.c: any numbers, in structs and in files. */

static uint64_t state = 88172645463325252u;

static uint64_t next(void) {
    state ^= state << 13;
    state ^= state >> 7;
    state ^= state << 17;
    return state;
}

/* A number that is likely to be near a bound. */
static uint64_t any(size_t len) {
    switch (next() % 8) {
    case 0: return next();
    case 1: return UINT64_MAX - next() % 100;
    case 2: return len - next() % 100;
    case 3: return next() % 16;
    case 4: return (uint64_t)1 << next() % 64;
    case 5: return UINT64_MAX / 24 + next() % 8;
    default: return next() % (len + 1);
    }
}

static struct elfsee_rows any_rows(size_t len) {
    struct elfsee_rows rows = {any(len), any(len), any(len), any(len), any(len), any(len)};
    if (next() & 1) rows.entry = next() & 1 ? 24 : 16;
    if (next() & 1) rows.index = rows.count - next() % 5;
    if (!(next() & 3)) rows.entry = next() & 1;
    return rows;
}

/* Whether rows that were read lie in the file, right after one another. */
static int lie_inside(const struct elfsee_rows *old, const struct elfsee_rows *now, size_t count,
                      unsigned size, size_t len) {
    if (count == 0) return 1;
    return now->at == old->at && now->count == old->count && old->at <= len &&
           old->index <= (len - old->at) / size && count <= (len - old->at) / size - old->index;
}

static int any_steps(void) {
    size_t want = next() % 20, count;
    struct elfsee_rows rows = any_rows(library.len), old = rows;
    struct lent lent = lend(24 * want, 0);
    int all;
    switch (next() % 4) {
    case 3:
        if (next() & 1) rows.entry = old.entry = 2;
        count = elfsee_next_version_words(library.bytes, library.len, &rows,
                                          (struct elfsee_version_word *)(void *)lent.bytes, want);
        all = lie_inside(&old, &rows, count, 2, library.len);
        break;
    case 0:
        count = elfsee_next_symbols(library.bytes, library.len, &rows,
                                    (struct elfsee_symbol *)(void *)lent.bytes, want);
        all = lie_inside(&old, &rows, count, 24, library.len);
        break;
    case 1:
        count = elfsee_next_relocations(library.bytes, library.len, &rows,
                                        (struct elfsee_relocation *)(void *)lent.bytes, want);
        all = lie_inside(&old, &rows, count, old.entry == 16 ? 16 : 24, library.len);
        break;
    default:
        count = elfsee_next_dynamic(library.bytes, library.len, &rows,
                                    (struct elfsee_dynamic *)(void *)lent.bytes, want);
        all = lie_inside(&old, &rows, count, 16, library.len);
    }
    return take_back(&lent) && count <= want && all;
}

/* The same within any budget, and with any number of bytes that were read before. */
static int any_steps_within(void) {
    size_t want = next() % 20, count;
    struct elfsee_rows rows = any_rows(library.len), old = rows;
    struct elfsee_limits limits = {1, 1, next() % 3, any(4 * library.len)};
    struct lent lent = lend(24 * want, 0);
    struct elfsee_end end = ODD;
    uint64_t asked = any(4 * library.len), before = asked, size = 24;
    switch (next() % 4) {
    case 3:
        size = 2;
        if (next() & 1) rows.entry = old.entry = 2;
        count = elfsee_next_version_words_within(library.bytes, library.len, &limits, &asked, &rows,
                                                 (struct elfsee_version_word *)(void *)lent.bytes, want, &end);
        break;
    case 0:
        count = elfsee_next_symbols_within(library.bytes, library.len, &limits, &asked, &rows,
                                           (struct elfsee_symbol *)(void *)lent.bytes, want, &end);
        break;
    case 1:
        count = elfsee_next_relocations_within(library.bytes, library.len, &limits, &asked, &rows,
                                               (struct elfsee_relocation *)(void *)lent.bytes, want, &end);
        break;
    default:
        size = 16;
        count = elfsee_next_dynamic_within(library.bytes, library.len, &limits, &asked, &rows,
                                           (struct elfsee_dynamic *)(void *)lent.bytes, want, &end);
    }
    if (!take_back(&lent) || count > want || !lie_inside(&old, &rows, count, size, library.len)) return 0;
    if (asked < before || (limits.has_budget && before <= limits.budget && asked > limits.budget)) return 0;
    return end.cause == 0 || (end.cause == ELFSEE_BUDGET && limits.has_budget && count < want);
}

/* Dynamic entries that are opened within any budget. */
static int any_opening_within(void) {
    struct elfsee_rows rows = any_rows(library.len);
    struct elfsee_limits limits = {(uint16_t)next(), 1, next() % 3, any(4 * library.len)};
    struct lent lent = lend(64 * (next() % 40), 0);
    struct elfsee_end end = ODD;
    uint64_t asked = any(4 * library.len), before = asked;
    uint16_t header = (uint16_t)any(40);
    uint32_t status;
    if (next() % 2)
        status = elfsee_segment_dynamic_within(library.bytes, library.len, &limits, header, &asked, &rows, &end);
    else
        status = elfsee_dynamic_within(library.bytes, library.len, &limits, header, lent.bytes, lent.len, &asked, &rows,
                                       &end);
    if (!take_back(&lent) || status > ELFSEE_BAD_CALL || status == ELFSEE_FULL) return 0;
    return asked >= before && !(limits.has_budget && before <= limits.budget && asked > limits.budget);
}

/* Records of versions from any place on: each lies in the file, and they end. */
static int any_records(void) {
    struct elfsee_version_records records = {any(library.len), any(library.len), any(library.len), 7, any(library.len),
                                             next() % 50, 7, 7, (uint32_t)(next() % 5), 7}, old;
    struct elfsee_version_record row;
    struct elfsee_end end = ODD;
    uint32_t status;
    if (next() & 1) records.at = next() % library.len, records.size = library.len - records.at;
    if (next() & 1) records.place = 0, records.owner = next() % 40;
    old = records;
    memset(&row, 77, sizeof row);
    while ((status = elfsee_next_version_record(library.bytes, library.len, &records, &row, &end)) == ELFSEE_OK) {
        if (row.at != old.at + old.place || row.at > library.len || library.len - row.at < 16) return 0;
        if (row.named_at > library.len || library.len - row.named_at < 4) return 0;
        if (row.kind != old.kind || (row.number & 32767) > 1023 || records.left + 1 != old.left) return 0;
        if (records.at != old.at || records.size != old.size || records.none != 7 || records.strings_at != 7) return 0;
        if (end.asked || end.written || end.cause || end.at) return 0;
        old = records;
    }
    return !memcmp(&old, &records, sizeof old) && end.asked == 0 && end.written == 0 && end.none == 0 &&
           (status == ELFSEE_ABSENT ? end.cause == 0
                                    : status == ELFSEE_REFUSED && (end.cause == ELFSEE_VERSION_CUT ||
                                                                   end.cause == ELFSEE_VERSION_INDEX ||
                                                                   end.cause == ELFSEE_BAD_VERSION));
}

/* Notes from any place on: each lies in the file after the one before, until they end or are cut. */
static int any_notes(void) {
    struct elfsee_notes notes = {any(library.len), any(library.len), next() % 10, 7, 7}, old = notes;
    struct elfsee_note note;
    struct elfsee_end end;
    uint32_t status;
    memset(&note, 7, sizeof note);
    memset(&end, 7, sizeof end);
    while ((status = elfsee_next_note(library.bytes, library.len, &notes, &note, &end)) == ELFSEE_OK) {
        if (note.at != old.at || notes.at < old.at + 12 || notes.left > old.left - 12) return 0;
        if (note.name_at + note.namesz > library.len || note.desc_at + note.descsz > library.len) return 0;
        old = notes;
    }
    return !memcmp(&old, &notes, sizeof old) &&
           (status == ELFSEE_ABSENT ||
            (status == ELFSEE_REFUSED && end.cause == ELFSEE_NOTE_CUT && end.at == notes.at));
}

static int any_name(void) {
    struct elfsee_range strings = {any(library.len), any(library.len)}, name = {7, 7};
    struct elfsee_end end = ODD;
    uint64_t offset = any(library.len);
    /* How much of the table lies in the file. */
    uint64_t left = strings.at < library.len ? library.len - strings.at : 0;
    uint32_t status = elfsee_name(library.bytes, library.len, &strings, offset, &name, &end);
    if (strings.len < left) left = strings.len;
    if (status == ELFSEE_REFUSED) {
        return end.cause == (offset < left ? ELFSEE_NAME_UNENDED : ELFSEE_NAME_OUTSIDE) && (left || offset) &&
               (offset >= left || !memchr(library.bytes + strings.at + offset, 0, (size_t)(left - offset)));
    }
    if (left == 0) return status == ELFSEE_OK && offset == 0 && name.at == 0 && name.len == 0;
    return status == ELFSEE_OK && name.at == strings.at + offset && offset < left && name.len < left - offset &&
           !memchr(library.bytes + name.at, 0, (size_t)name.len) &&
           library.bytes[name.at + name.len] == 0;
}

static struct lent archive; /* made of the two files */

/* A member after those so far: its header, its data and the byte after them if it is due. */
static size_t add_member(uint8_t *bytes, size_t at, const char *name, const uint8_t *content, size_t len) {
    char header[61];
    snprintf(header, sizeof header, "%-48s%-10zu`\n", name, len);
    memcpy(bytes + at, header, 60);
    memcpy(bytes + at + 60, content, len);
    if (len % 2) bytes[at + 60 + len] = '\n';
    return at + 60 + len + len % 2;
}

static void make_archive(void) {
    static const char table[] = "a_name_of_some_bytes.o/\nanother_name.so/\n";
    size_t at = 8, room_len = object.len + library.len + 1000;
    uint8_t *bytes = (uint8_t *)malloc(room_len);
    if (!bytes) abort();
    memcpy(bytes, "!<arch>\n", 8);
    at = add_member(bytes, at, "//", (const uint8_t *)table, sizeof table - 1);
    at = add_member(bytes, at, "/0", object.bytes, object.len);
    at = add_member(bytes, at, "/24", library.bytes, library.len);
    at = add_member(bytes, at, "short/", object.bytes, 3);
    archive = lend_copy(bytes, at, 0);
    free(bytes);
}

/* Members of an archive, or of bytes that are none, from any place on. */
static int any_members(void) {
    const struct lent *file = next() % 4 ? &archive : &library;
    struct elfsee_members members = {any(file->len), {any(file->len), any(file->len)}, next() & 1, 7}, old;
    struct elfsee_member member;
    struct elfsee_end end = ODD;
    uint32_t status;
    unsigned front = next() % 3;
    if (front) members.at = 8;
    if (front == 2) members.names.at = 68, members.names.len = 41, members.has_names = 1;
    old = members;
    memset(&member, 7, sizeof member);
    while ((status = elfsee_next_member(file->bytes, file->len, &members, &member, &end)) == ELFSEE_OK) {
        uint64_t front = name_in_data(file->bytes, file->len, old.at);
        if (member.at != old.at || member.content.at != old.at + 60 + front || members.at < old.at + 60) return 0;
        if (member.content.at > file->len || member.content.len > file->len - member.content.at) return 0;
        if (member.name.at > file->len || member.name.len > file->len - member.name.at) return 0;
        if (member.name.len > 4096 || member.is_cut > 1 || member.none != 0 || members.none != 7) return 0;
        if (end.asked || end.written || end.cause || end.at) return 0;
        old = members;
    }
    return !memcmp(&old, &members, sizeof old) && end.asked == 0 && end.written == 0 &&
           (status == ELFSEE_ABSENT
                ? members.at >= file->len
                : status == ELFSEE_REFUSED && end.at == members.at &&
                      (end.cause == ELFSEE_MEMBER_CUT || end.cause == ELFSEE_NAME_OUTSIDE ||
                       end.cause == ELFSEE_NAME_UNENDED));
}

/* The first place of an archive, and of what is none. */
static void first_members(void) {
    struct elfsee_members members = {7, {7, 7}, 7, 7};
    struct elfsee_end end = ODD;
    int all = 1;
    size_t len;
    for (len = 0; len < 8; len += 1) {
        all &= elfsee_members(archive.bytes, len, &members, &end) == ELFSEE_REFUSED &&
               end.cause == ELFSEE_SHORT && end.at == 0 && end.asked == 0 && members.at == 7 && members.none == 7;
    }
    check(all, "archives of 0 to 7 bytes");
    check(elfsee_members(object.bytes, object.len, &members, &end) == ELFSEE_REFUSED &&
              end.cause == ELFSEE_NOT_ARCHIVE && end.at == 0 && members.at == 7,
          "an object is no archive");
    check(elfsee_members((const uint8_t *)"!<thin>\n", 8, &members, &end) == ELFSEE_REFUSED &&
              end.cause == ELFSEE_THIN && end.at == 0 && members.at == 7,
          "a thin archive");
    check(elfsee_members(archive.bytes, 8, &members, &end) == ELFSEE_OK && members.at == 8 &&
              members.names.at == 0 && members.names.len == 0 && members.has_names == 0 && members.none == 0 &&
              end.cause == 0 && end.none == 0,
          "an archive without members");
}

/* The members of an archive that is cut anywhere: as many as end before that. */
static void cut_archives(void) {
    struct elfsee_members members;
    struct elfsee_member member;
    struct elfsee_end end;
    int all = 1;
    size_t len, count, ends[5];
    memset(&members, 0, sizeof members);
    memset(&member, 0, sizeof member);
    all &= elfsee_members(archive.bytes, archive.len, &members, &end) == ELFSEE_OK;
    for (count = 0; count < 4; count += 1) {
        all &= elfsee_next_member(archive.bytes, archive.len, &members, &member, &end) == ELFSEE_OK;
        ends[count] = (size_t)(member.content.at + member.content.len);
    }
    all &= elfsee_next_member(archive.bytes, archive.len, &members, &member, &end) == ELFSEE_ABSENT;
    ends[4] = SIZE_MAX;
    for (len = 8; len < archive.len; len += len < 200 || archive.len - len < 100 ? 1 : 97) {
        struct lent file = lend_copy(archive.bytes, len, len & 1);
        uint32_t status = elfsee_members(file.bytes, len, &members, &end);
        for (count = 0; status == ELFSEE_OK && count < 6; count += 1)
            status = elfsee_next_member(file.bytes, len, &members, &member, &end);
        all &= count >= 1 && (count == 1 || ends[count - 2] <= len) && len < ends[count - 1];
        all &= status == ELFSEE_ABSENT ? members.at >= len : end.cause == ELFSEE_MEMBER_CUT && end.at == members.at;
        take_back(&file);
    }
    check(all, "archives that are cut");
}

/* A file with some of its bytes changed, or cut. */
static struct lent changed(const struct lent *whole) {
    size_t len = next() % 4 ? whole->len : next() % (whole->len + 1), count = next() % 8;
    struct lent file = lend_copy(whole->bytes, len, next() & 1);
    if (mprotect(file.inner, file.inner_len, PROT_READ | PROT_WRITE)) abort();
    for (; count && len; count -= 1) {
        size_t at = next() % 3 ? next() % (len < 64 ? len : 64) : next() % len;
        file.bytes[at] = (uint8_t)(next() & 1 ? next() : next() % 3 * 0x7f);
    }
    if (mprotect(file.inner, file.inner_len, PROT_READ)) abort();
    return file;
}

static struct elfsee_limits any_limits(void) {
    struct elfsee_limits limits = {(uint16_t)any(100), (uint16_t)any(300), (uint32_t)(next() & 1), any(4000)};
    if (next() & 1) limits.headers = 65279;
    if (next() & 1) limits.name = 256;
    return limits;
}

/* Whether what a call answers lies in its bounds. */
static int is_end(const struct elfsee_end *end, uint32_t status, const struct elfsee_limits *limits,
                  size_t out_len) {
    return status <= ELFSEE_BAD_CALL && end->written <= out_len &&
           (end->cause != 0) == (status == ELFSEE_REFUSED) && end->cause <= ELFSEE_TABLE_WRITTEN &&
           (status == ELFSEE_REFUSED || end->at == 0) && end->none == 0 &&
           (!limits->has_budget || end->asked <= limits->budget);
}

static int any_show(void) {
    struct lent file = changed(next() & 1 ? &object : &library);
    struct lent some_room = lend(next() % (64 * 50), next() & 1), some_out = lend(next() % 20000, next() & 1);
    struct elfsee_limits limits = any_limits();
    struct elfsee_end end = ODD;
    uint32_t status = elfsee_show(file.bytes, file.len, &limits, (uint16_t)next(), some_room.bytes,
                                  some_room.len, some_out.bytes, some_out.len, &end);
    int all = is_end(&end, status, &limits, some_out.len) && end.asked <= elfsee_cost(file.len, &limits);
    int bad = limits.headers < 1 || limits.headers > 65279 || limits.name < 1 || limits.name > 4096 ||
              some_room.len < 64;
    all &= bad == (status == ELFSEE_BAD_CALL) && status != ELFSEE_ABSENT;
    all &= status != ELFSEE_FULL || end.written == some_out.len;
    take_back(&file);
    return take_back(&some_room) & take_back(&some_out) & all;
}

/* A listing in any style: the struct has any bytes, and any number of them. */
static int any_list(void) {
    struct lent file = changed(next() & 1 ? &object : &library);
    struct lent some_room = lend(next() % (64 * 50), next() & 1), some_out = lend(next() % 20000, next() & 1);
    struct lent asked = lend(next() % 4 ? 4 * (next() % 4) : next() % 16, 0);
    struct elfsee_limits limits = any_limits();
    struct elfsee_end end = ODD;
    uint8_t asks[16] = {0};
    size_t i, zeros = 1;
    for (i = 0; i < asked.len; i += 1)
        asks[i] = (uint8_t)(i >= 4 ? next() % 40 == 0 : next() % 3 ? next() % 16 : i % 2 ? 0 : next());
    if (asked.len) memcpy(asked.bytes, asks, asked.len);
    uint32_t status = elfsee_list(file.bytes, file.len, &limits, (const void *)asked.bytes, asked.len,
                                  some_room.bytes, some_room.len, some_out.bytes, some_out.len, &end);
    unsigned parts = asks[0] | (unsigned)asks[1] << 8, flags = asks[2] | (unsigned)asks[3] << 8;
    for (i = 4; i < asked.len; i += 1) zeros &= asks[i] == 0;
    int bad = limits.headers < 1 || limits.headers > 65279 || limits.name < 1 || limits.name > 4096 ||
              some_room.len < 64 || asked.len < 4 || !zeros || flags & ~29u || (flags & 20) == 16 ||
              parts > (flags & 4 ? 255u : 127u);
    int all = status <= ELFSEE_BAD_CALL && status != ELFSEE_ABSENT && bad == (status == ELFSEE_BAD_CALL) &&
              end.written <= some_out.len && end.none == 0 && (end.cause != 0) == (status == ELFSEE_REFUSED) &&
              (status == ELFSEE_REFUSED || end.at == 0) && (!limits.has_budget || end.asked <= limits.budget);
    all &= (flags & 16 || end.asked <= elfsee_cost(file.len, &limits)) && (!bad || (end.asked == 0 && end.written == 0));
    all &= status != ELFSEE_FULL || end.written == some_out.len;
    take_back(&file);
    take_back(&asked);
    return take_back(&some_room) & take_back(&some_out) & all;
}

/* Whether bytes are no name of which rows are listed. */
static int is_bad_name(const uint8_t *bytes, size_t len, int has_versions) {
    const uint8_t *sign = len ? (const uint8_t *)memchr(bytes, '@', len) : 0;
    size_t behind;
    if (!len || len > 4096 || memchr(bytes, 0, len)) return 1;
    if (!has_versions || !sign) return 0;
    behind = len - (size_t)(sign - bytes) - 1;
    if (behind && sign[1] == '@') behind -= 1;
    return sign == bytes || !behind;
}

static int is_below(const struct elfsee_text *one, const struct elfsee_text *other) {
    size_t front = one->len < other->len ? one->len : other->len;
    int order = front ? memcmp(one->bytes, other->bytes, front) : 0;
    return order < 0 || (order == 0 && one->len < other->len);
}

/* A listing of the rows of any names, in any style. */
static int any_list_names(void) {
    static const char letters[] = "abcl@@V";
    static uint8_t bytes[MOST_NAMES][4200];
    struct lent file = changed(next() & 1 ? &object : &library);
    struct lent some_room = lend(next() % (64 * 50), next() & 1), some_out = lend(next() % 3000, next() & 1);
    struct elfsee_listing asked = {(uint16_t)(1u << next() % 9), (uint16_t)(next() % 4 ? next() % 32 : 20)};
    struct elfsee_limits limits = any_limits();
    struct elfsee_text texts[MOST_NAMES];
    struct elfsee_end end = ODD;
    size_t count = next() % (MOST_NAMES + 1), i, at;
    int bad = limits.headers < 1 || limits.headers > 65279 || limits.name < 1 || limits.name > 4096 ||
              some_room.len < 64 || asked.flags & ~29u || (asked.flags & 20) == 16 ||
              (asked.parts != 8 && asked.parts != 16 && !(asked.parts == 128 && asked.flags & 4));
    for (i = 0; i < count; i += 1) {
        texts[i].bytes = bytes[i];
        texts[i].len = next() % 20 ? next() % 5 + (i > 0) : 4090 + next() % 10;
        for (at = 0; at < texts[i].len; at += 1)
            bytes[i][at] = (uint8_t)(next() % 200 ? (unsigned char)letters[next() % 7] : next());
        if (i && next() % 8 && is_below(&texts[i], &texts[i - 1])) texts[i] = texts[i - 1];
        bad |= is_bad_name(texts[i].bytes, texts[i].len, asked.flags & 16) || (i && is_below(&texts[i], &texts[i - 1]));
    }
    struct names names = lend_names(texts, count);
    uint32_t status = elfsee_list_names(file.bytes, file.len, &limits, &asked, sizeof asked,
                                        (const struct elfsee_text *)(void *)names.list.bytes, count, some_room.bytes,
                                        some_room.len, some_out.bytes, some_out.len, &end);
    int all = status <= ELFSEE_BAD_CALL && status != ELFSEE_ABSENT && bad == (status == ELFSEE_BAD_CALL) &&
              end.written <= some_out.len && end.none == 0 && (end.cause != 0) == (status == ELFSEE_REFUSED) &&
              (status == ELFSEE_REFUSED || end.at == 0) && (!limits.has_budget || end.asked <= limits.budget);
    all &= (!bad || (end.asked == 0 && end.written == 0)) && (status != ELFSEE_FULL || end.written == some_out.len);
    take_back(&file);
    return take_names(&names) & take_back(&some_room) & take_back(&some_out) & all;
}

/* The symbols of the hash table of any file: they lie in it, and there are as many as were counted. */
static int any_hashed(void) {
    struct lent file = changed(&library), some_room = lend(next() % (64 * 50), next() & 1);
    struct elfsee_limits limits = any_limits();
    struct elfsee_rows rows = {any(1), any(1), any(1), any(1), any(1), any(1)}, before = rows;
    struct elfsee_end end = ODD;
    uint32_t flags = (uint32_t)(next() % 8 ? next() % 2 : any(2));
    uint32_t status = elfsee_hashed_symbols(file.bytes, file.len, &limits, flags, some_room.bytes, some_room.len,
                                            &rows, &end);
    int bad = limits.headers < 1 || limits.headers > 65279 || some_room.len < 64 || flags > 1;
    int all = bad == (status == ELFSEE_BAD_CALL) && end.written == 0 && end.none == 0 &&
              (status == ELFSEE_OK || status == ELFSEE_REFUSED || bad) && (end.cause != 0) == (status == ELFSEE_REFUSED) &&
              (!limits.has_budget || end.asked <= limits.budget) && (!bad || end.asked == 0);
    if (status != ELFSEE_OK) all &= !memcmp(&rows, &before, sizeof rows);
    if (status == ELFSEE_OK)
        all &= rows.index == 0 && rows.entry == 24 &&
               (!rows.count || (rows.at <= file.len && rows.count <= (file.len - rows.at) / 24));
    take_back(&file);
    return take_back(&some_room) & all;
}

static int any_find(void) {
    struct lent file = changed(&library), name = lend_copy(library.bytes, next() % 300, next() & 1);
    struct lent some_room = lend(next() % (64 * 50), next() & 1);
    struct elfsee_limits limits = any_limits();
    struct elfsee_end end = ODD;
    struct elfsee_found found = {{any(1), any(1), 1, 1, 1, 1}, 1, 1, 1, 1, 1};
    uint32_t status = elfsee_find(file.bytes, file.len, &limits, some_room.bytes, some_room.len, name.bytes,
                                  name.len, &found, &end);
    int all = is_end(&end, status, &limits, 0) && status != ELFSEE_FULL;
    take_back(&file);
    take_back(&name);
    return take_back(&some_room) && all;
}

static int any_look_up(void) {
    struct lent file = changed(&library), name = lend_copy(next() & 1 ? "call" : "other", 4 + next() % 2, 0);
    struct lent version = lend_copy(library.bytes, next() % 3 ? 0 : next() % 300, next() & 1);
    struct lent some_room = lend(next() % (64 * 50), next() & 1);
    struct elfsee_limits limits = any_limits();
    struct elfsee_end end = ODD;
    struct elfsee_resolved found;
    uint32_t flags = (uint32_t)any(3);
    memset(&found, (int)next(), sizeof found);
    uint32_t status = elfsee_look_up(file.bytes, file.len, &limits, flags, name.bytes, name.len, version.bytes,
                                     version.len, some_room.bytes, some_room.len, &found, &end);
    int bad = limits.headers < 1 || limits.headers > 65279 || some_room.len < 64 || flags > 3;
    int all = status <= ELFSEE_BAD_CALL && end.written == 0 && end.none == 0 && status != ELFSEE_FULL &&
              (end.cause != 0) == (status == ELFSEE_REFUSED) && (status == ELFSEE_REFUSED || end.at == 0) &&
              (!limits.has_budget || end.asked <= limits.budget) && bad == (status == ELFSEE_BAD_CALL);
    all &= found.none == 0 && found.none_behind == 0 && found.has_version <= 1 && found.is_hidden <= 1 &&
           found.is_cut <= 1 && found.number < 32768 && found.version.len <= 256;
    all &= found.version.len == 0 || (found.version.at <= file.len && version.len == 0 &&
                                      found.version.len <= file.len - found.version.at);
    if (status != ELFSEE_OK && status != ELFSEE_ABSENT) all &= is_zero(&found, sizeof found);
    take_back(&file);
    take_back(&name);
    take_back(&version);
    return take_back(&some_room) && all;
}

static int any_bytes(void) {
    struct lent file = changed(next() & 1 ? &object : &library);
    struct elfsee_range range = {any(file.len), any(file.len)}, old = range;
    struct elfsee_end end = ODD;
    uint32_t status = elfsee_section_bytes(file.bytes, file.len, (uint16_t)any(40), &range, &end);
    int all = status <= ELFSEE_ABSENT && end.asked == 0 && end.written == 0 && end.none == 0 &&
              (end.cause != 0) == (status == ELFSEE_REFUSED);
    all &= status == ELFSEE_OK ? range.at <= file.len && range.len <= file.len - range.at
                               : range.at == old.at && range.len == old.len;
    take_back(&file);
    return all;
}

static int any_apply(void) {
    struct lent file = changed(&object), some_room = lend(next() % (64 * 50), next() & 1);
    struct lent some_out = lend(next() % 200, next() & 1);
    struct elfsee_limits limits = any_limits();
    struct elfsee_end end = ODD;
    struct elfsee_job job = {items, add(add(0, ELFSEE_SECTION, next() % 67), ELFSEE_DEFINE, next() % 35),
                             (uint32_t)(next() & 1 ? 1 : any(20)), (uint32_t)next()};
    unsigned odd;
    for (odd = next() % 3; odd && job.items_len; odd -= 1) {
        struct elfsee_item *item = &items[next() % job.items_len];
        item->kind = (uint32_t)any(5);
        item->index = (uint32_t)any(65536);
        item->name_len = next() % 5;
        item->address = next();
    }
    uint32_t status = elfsee_apply(file.bytes, file.len, &limits, &job, some_room.bytes, some_room.len,
                                   some_out.bytes, some_out.len, &end);
    int all = is_end(&end, status, &limits, some_out.len) && status != ELFSEE_ABSENT;
    all &= status == ELFSEE_OK || status == ELFSEE_FULL || end.written == 0;
    take_back(&file);
    return take_back(&some_room) & take_back(&some_out) & all;
}

static int any_place(void) {
    struct lent file = changed(&object), some_room = lend(next() % (64 * 50), next() & 1);
    struct lent some_out = lend(next() % 200, next() & 1);
    struct elfsee_limits limits = any_limits();
    struct elfsee_end end = ODD;
    struct elfsee_missing missing;
    struct elfsee_layout layout = risen(next() % ITEMS);
    unsigned odd;
    memset(&missing, (int)next(), sizeof missing);
    if (next() & 1) layout.definitions_len = 0;
    for (odd = next() % 8 ? 0 : 2; odd && layout.sections_len; odd -= 1) {
        size_t at = next() % layout.sections_len;
        lent_sections[at].index = (uint16_t)any(300);
        lent_names[1 + next() % 4][at].name_len = next() % 3;
    }
    uint32_t status = elfsee_apply_lent(file.bytes, file.len, &limits, next() & 1 ? 1 : (uint16_t)any(20), &layout,
                                        some_room.bytes, some_room.len, some_out.bytes, some_out.len, &missing, &end);
    int all = is_end(&end, status, &limits, some_out.len) && status != ELFSEE_ABSENT;
    all &= status == ELFSEE_OK || status == ELFSEE_FULL || end.written == 0;
    all &= status == ELFSEE_REFUSED || is_zero(&missing, sizeof missing);
    all &= missing.helpful < 32 && missing.section < 65536 && missing.name_len <= 255 && missing.is_cut <= 1 &&
           (missing.helpful || is_zero(&missing, sizeof missing));
    take_back(&file);
    return take_back(&some_room) & take_back(&some_out) & all;
}

/* Definitions and needs of a changed file, opened with any limits. */
static int any_open_records(void) {
    struct lent file = changed(&library), some_room = lend(next() % (64 * 50), next() & 1);
    struct elfsee_limits limits = any_limits();
    struct elfsee_end end = ODD;
    struct elfsee_version_records records = {77, 77, 77, 77, 77, 77, 77, 77, 77, 77}, old = records;
    uint32_t status = elfsee_version_records(file.bytes, file.len, &limits, (uint16_t)any(30), some_room.bytes,
                                             some_room.len, &records, &end);
    int all = status != ELFSEE_FULL && is_end(&end, status, &limits, 0);
    if (status == ELFSEE_OK) {
        all &= records.place == 0 && records.owner == 0 && records.none == 0 && records.kind <= 2 &&
               records.left <= records.size / 16;
        all &= records.size == 0 || (records.at <= file.len && records.size <= file.len - records.at);
    } else {
        all &= !memcmp(&records, &old, sizeof old);
    }
    take_back(&file);
    return take_back(&some_room) && all;
}

static int any_open(void) {
    struct lent file = changed(next() & 1 ? &object : &library),
                some_room = lend(next() % (64 * 50), next() & 1);
    struct elfsee_limits limits = any_limits();
    struct elfsee_end end = ODD;
    struct elfsee_rows rows = any_rows(file.len);
    struct elfsee_range range = {any(1), any(1)};
    uint16_t section = (uint16_t)any(30);
    uint32_t status;
    int all;
    if (next() % 5) {
        status = TABLES[next() % TABLE_COUNT].call(file.bytes, file.len, &limits, section, some_room.bytes,
                                                   some_room.len, &rows, &end);
        all = status != ELFSEE_OK || (rows.at <= file.len && rows.index == 0);
    } else {
        status =
            elfsee_section_names(file.bytes, file.len, &limits, some_room.bytes, some_room.len, &range, &end);
        all = status != ELFSEE_OK || (range.at <= file.len && range.len <= file.len - range.at);
    }
    all &= status != ELFSEE_FULL && is_end(&end, status, &limits, 0);
    take_back(&file);
    return take_back(&some_room) && all;
}

/* The dynamic entries of a segment, and bytes at any address, of a changed file. */
static int any_mapped(void) {
    struct lent file = changed(&library);
    struct elfsee_end end = ODD;
    struct elfsee_limits none = {1, 1, 0, 0};
    struct elfsee_rows rows = any_rows(file.len), old = rows;
    struct elfsee_range range = {77, 77};
    uint64_t address = any(file.len), size = any(file.len);
    uint32_t status = elfsee_segment_dynamic(file.bytes, file.len, (uint16_t)any(10), &rows, &end);
    int all = status <= ELFSEE_ABSENT && is_end(&end, status, &none, 0) && end.asked == 0;
    if (status == ELFSEE_OK) {
        all &= rows.index == 0 && rows.entry == 16 && rows.strings_at == 0 && rows.strings_len == 0;
        all &= rows.count == 0 || (rows.at <= file.len && rows.count <= (file.len - rows.at) / 16);
    } else {
        all &= !memcmp(&rows, &old, sizeof rows);
    }
    status = elfsee_mapped(file.bytes, file.len, address, size, &range, &end);
    all &= status <= ELFSEE_ABSENT && is_end(&end, status, &none, 0) && end.asked == 0;
    if (status == ELFSEE_OK)
        all &= range.len == size && range.at <= file.len && size <= file.len - range.at;
    else
        all &= range.at == 77 && range.len == 77;
    take_back(&file);
    return all;
}

static int any_header(void) {
    struct lent file = changed(next() & 1 ? &object : &library);
    struct elfsee_end end = ODD;
    struct elfsee_header header;
    struct elfsee_section section;
    struct elfsee_segment segment;
    struct elfsee_limits none = {1, 1, 0, 0};
    uint64_t wanted = elfsee_room(file.bytes, file.len, (uint16_t)any(100));
    uint32_t status;
    int all = wanted >= 64 && wanted <= 64 * 65535u;
    memset(&header, 77, sizeof header);
    memset(&section, 77, sizeof section);
    memset(&segment, 77, sizeof segment);
    status = elfsee_header(file.bytes, file.len, &header, &end);
    all &= status <= ELFSEE_REFUSED && is_end(&end, status, &none, 0);
    status = elfsee_section(file.bytes, file.len, (uint16_t)any(30), &section, &end);
    all &= status <= ELFSEE_ABSENT && is_end(&end, status, &none, 0);
    status = elfsee_segment(file.bytes, file.len, (uint16_t)any(10), &segment, &end);
    all &= status <= ELFSEE_ABSENT && is_end(&end, status, &none, 0);
    take_back(&file);
    return all;
}
