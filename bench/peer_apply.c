/* Writes a section's bytes with its relocations applied by libbfd, for bench/jobs:

       peer_apply FILE SECTION

   Each section is at address 0, and a symbol that is not defined has the address 0. Built with -lbfd. */
#define PACKAGE "elfsee"
#define PACKAGE_VERSION "0"
#include <bfd.h>
#include <stdio.h>
#include <stdlib.h>

int main(int count, char **words) {
    if (count < 3) return 2;
    bfd_init();
    bfd *file = bfd_openr(words[1], 0);
    if (!file || !bfd_check_format(file, bfd_object)) return 1;
    asection *section = bfd_get_section_by_name(file, words[2]);
    if (!section) return 1;
    bfd_byte *bytes = bfd_simple_get_relocated_section_contents(file, section, 0, 0);
    if (!bytes) return 1;
    size_t size = bfd_section_size(section);
    return fwrite(bytes, 1, size, stdout) != size;
}
