/* Prints the layout of the structs of elfsee.h: a line `STRUCT FIELD OFFSET SIZE` for each field,
 * and before those of a struct the line `STRUCT . 0 SIZE`, with the size of the whole. Those who call the
 * library from other languages compare theirs with it; tests/gate/library.py compares the crate's. */
#include "elfsee.h"

#include <stdio.h>

#define WHOLE(type) printf("%s . 0 %zu\n", #type, sizeof(struct type))
#define FIELD(type, field) \
    printf("%s %s %zu %zu\n", #type, #field, offsetof(struct type, field), sizeof(((struct type *)0)->field))

static void calls(void) {
    WHOLE(elfsee_limits);
    FIELD(elfsee_limits, headers);
    FIELD(elfsee_limits, name);
    FIELD(elfsee_limits, has_budget);
    FIELD(elfsee_limits, budget);
    WHOLE(elfsee_end);
    FIELD(elfsee_end, at);
    FIELD(elfsee_end, written);
    FIELD(elfsee_end, asked);
    FIELD(elfsee_end, cause);
    FIELD(elfsee_end, none);
    WHOLE(elfsee_listing);
    FIELD(elfsee_listing, parts);
    FIELD(elfsee_listing, flags);
    WHOLE(elfsee_text);
    FIELD(elfsee_text, bytes);
    FIELD(elfsee_text, len);
    WHOLE(elfsee_found);
    FIELD(elfsee_found, symbol);
    FIELD(elfsee_found, index);
    FIELD(elfsee_found, steps);
    FIELD(elfsee_found, section);
    FIELD(elfsee_found, none);
    FIELD(elfsee_found, none_behind);
    WHOLE(elfsee_resolved);
    FIELD(elfsee_resolved, symbol);
    FIELD(elfsee_resolved, index);
    FIELD(elfsee_resolved, tried);
    FIELD(elfsee_resolved, version);
    FIELD(elfsee_resolved, has_version);
    FIELD(elfsee_resolved, is_hidden);
    FIELD(elfsee_resolved, is_cut);
    FIELD(elfsee_resolved, section);
    FIELD(elfsee_resolved, words);
    FIELD(elfsee_resolved, number);
    FIELD(elfsee_resolved, none);
    FIELD(elfsee_resolved, none_behind);
    WHOLE(elfsee_item);
    FIELD(elfsee_item, address);
    FIELD(elfsee_item, name);
    FIELD(elfsee_item, name_len);
    FIELD(elfsee_item, kind);
    FIELD(elfsee_item, index);
    WHOLE(elfsee_job);
    FIELD(elfsee_job, items);
    FIELD(elfsee_job, items_len);
    FIELD(elfsee_job, section);
    FIELD(elfsee_job, none);
}

static void layouts(void) {
    WHOLE(elfsee_lent_section);
    FIELD(elfsee_lent_section, index);
    FIELD(elfsee_lent_section, address);
    WHOLE(elfsee_lent_name);
    FIELD(elfsee_lent_name, name);
    FIELD(elfsee_lent_name, name_len);
    FIELD(elfsee_lent_name, address);
    WHOLE(elfsee_layout);
    FIELD(elfsee_layout, sections);
    FIELD(elfsee_layout, sections_len);
    FIELD(elfsee_layout, definitions);
    FIELD(elfsee_layout, definitions_len);
    FIELD(elfsee_layout, linkage);
    FIELD(elfsee_layout, linkage_len);
    FIELD(elfsee_layout, table);
    FIELD(elfsee_layout, table_len);
    FIELD(elfsee_layout, thread);
    FIELD(elfsee_layout, thread_len);
    WHOLE(elfsee_missing);
    FIELD(elfsee_missing, helpful);
    FIELD(elfsee_missing, section);
    FIELD(elfsee_missing, relocation);
    FIELD(elfsee_missing, name_len);
    FIELD(elfsee_missing, is_cut);
    FIELD(elfsee_missing, name);
}

static void versions(void) {
    WHOLE(elfsee_version_word);
    FIELD(elfsee_version_word, number);
    FIELD(elfsee_version_word, is_hidden);
    WHOLE(elfsee_version_record);
    FIELD(elfsee_version_record, at);
    FIELD(elfsee_version_record, named_at);
    FIELD(elfsee_version_record, name);
    FIELD(elfsee_version_record, hash);
    FIELD(elfsee_version_record, number);
    FIELD(elfsee_version_record, flags);
    FIELD(elfsee_version_record, kind);
    WHOLE(elfsee_version_records);
    FIELD(elfsee_version_records, at);
    FIELD(elfsee_version_records, size);
    FIELD(elfsee_version_records, place);
    FIELD(elfsee_version_records, from);
    FIELD(elfsee_version_records, owner);
    FIELD(elfsee_version_records, left);
    FIELD(elfsee_version_records, strings_at);
    FIELD(elfsee_version_records, strings_len);
    FIELD(elfsee_version_records, kind);
    FIELD(elfsee_version_records, none);
}

static void headers(void) {
    WHOLE(elfsee_image_item);
    FIELD(elfsee_image_item, kind);
    FIELD(elfsee_image_item, key);
    FIELD(elfsee_image_item, value);
    WHOLE(elfsee_copied);
    FIELD(elfsee_copied, index);
    FIELD(elfsee_copied, digits);
    FIELD(elfsee_copied, bytes);
    FIELD(elfsee_copied, bytes_len);
    WHOLE(elfsee_image_items);
    FIELD(elfsee_image_items, numbers);
    FIELD(elfsee_image_items, numbers_len);
    FIELD(elfsee_image_items, copies);
    FIELD(elfsee_image_items, copies_len);
    FIELD(elfsee_image_items, partial);
    FIELD(elfsee_image_items, none);
    WHOLE(elfsee_lacking);
    FIELD(elfsee_lacking, at);
    FIELD(elfsee_lacking, place);
    FIELD(elfsee_lacking, type);
    FIELD(elfsee_lacking, symbol);
    FIELD(elfsee_lacking, cause);
    FIELD(elfsee_lacking, none);
    WHOLE(elfsee_header);
    FIELD(elfsee_header, entry);
    FIELD(elfsee_header, phoff);
    FIELD(elfsee_header, shoff);
    FIELD(elfsee_header, version);
    FIELD(elfsee_header, flags);
    FIELD(elfsee_header, type);
    FIELD(elfsee_header, machine);
    FIELD(elfsee_header, ehsize);
    FIELD(elfsee_header, phentsize);
    FIELD(elfsee_header, phnum);
    FIELD(elfsee_header, shentsize);
    FIELD(elfsee_header, shnum);
    FIELD(elfsee_header, shstrndx);
    FIELD(elfsee_header, ident);
    WHOLE(elfsee_section);
    FIELD(elfsee_section, flags);
    FIELD(elfsee_section, addr);
    FIELD(elfsee_section, offset);
    FIELD(elfsee_section, size);
    FIELD(elfsee_section, addralign);
    FIELD(elfsee_section, entsize);
    FIELD(elfsee_section, name);
    FIELD(elfsee_section, type);
    FIELD(elfsee_section, link);
    FIELD(elfsee_section, info);
    WHOLE(elfsee_segment);
    FIELD(elfsee_segment, offset);
    FIELD(elfsee_segment, vaddr);
    FIELD(elfsee_segment, paddr);
    FIELD(elfsee_segment, filesz);
    FIELD(elfsee_segment, memsz);
    FIELD(elfsee_segment, align);
    FIELD(elfsee_segment, type);
    FIELD(elfsee_segment, flags);
}

static void rows(void) {
    WHOLE(elfsee_symbol);
    FIELD(elfsee_symbol, value);
    FIELD(elfsee_symbol, size);
    FIELD(elfsee_symbol, name);
    FIELD(elfsee_symbol, section);
    FIELD(elfsee_symbol, info);
    FIELD(elfsee_symbol, other);
    WHOLE(elfsee_relocation);
    FIELD(elfsee_relocation, offset);
    FIELD(elfsee_relocation, info);
    FIELD(elfsee_relocation, addend);
    WHOLE(elfsee_short_relocation);
    FIELD(elfsee_short_relocation, offset);
    FIELD(elfsee_short_relocation, info);
    WHOLE(elfsee_dynamic);
    FIELD(elfsee_dynamic, tag);
    FIELD(elfsee_dynamic, value);
    WHOLE(elfsee_range);
    FIELD(elfsee_range, at);
    FIELD(elfsee_range, len);
    WHOLE(elfsee_rows);
    FIELD(elfsee_rows, at);
    FIELD(elfsee_rows, count);
    FIELD(elfsee_rows, index);
    FIELD(elfsee_rows, entry);
    FIELD(elfsee_rows, strings_at);
    FIELD(elfsee_rows, strings_len);
    WHOLE(elfsee_notes);
    FIELD(elfsee_notes, at);
    FIELD(elfsee_notes, left);
    FIELD(elfsee_notes, align);
    FIELD(elfsee_notes, header);
    FIELD(elfsee_notes, none);
    WHOLE(elfsee_note);
    FIELD(elfsee_note, at);
    FIELD(elfsee_note, name_at);
    FIELD(elfsee_note, desc_at);
    FIELD(elfsee_note, namesz);
    FIELD(elfsee_note, descsz);
    FIELD(elfsee_note, type);
    FIELD(elfsee_note, header);
    WHOLE(elfsee_members);
    FIELD(elfsee_members, at);
    FIELD(elfsee_members, names);
    FIELD(elfsee_members, has_names);
    FIELD(elfsee_members, none);
    WHOLE(elfsee_member);
    FIELD(elfsee_member, at);
    FIELD(elfsee_member, content);
    FIELD(elfsee_member, name);
    FIELD(elfsee_member, is_cut);
    FIELD(elfsee_member, none);
}

int main(void) {
    calls();
    layouts();
    versions();
    headers();
    rows();
    return 0;
}
