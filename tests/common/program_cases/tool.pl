# The files of tests/gate/program, and the ways to start a command that a shell has no words for.
use strict;
use warnings;
no warnings 'portable';     # offsets of more than 32 bits
use Socket;

# Records, by their fields; what is not named is 0.
sub header {
    my %f = (type => 1, machine => 62, phoff => 0, shoff => 0, phnum => 0, shnum => 0, names => 0, @_);
    return "\x7fELF\2\1\1" . "\0" x 9 . pack 'S<2 L< Q<3 L< S<6', $f{type}, $f{machine}, 0, 0, $f{phoff}, $f{shoff},
        0, 0, $f{phnum} && 56, $f{phnum}, $f{shnum} && 64, $f{shnum}, $f{names};
}

sub section {
    my %f = map { $_ => 0 } my @names = qw(name type flags addr offset size link info align entry);
    %f = (%f, @_);
    return pack 'L<2 Q<4 L<2 Q<2', @f{@names};
}

sub segment { return pack 'L<2 Q<6', @_ }       # type, flags, offset, two addresses, two sizes, alignment
sub symbol { return pack 'L< C2 S< Q<2', @_ }   # name, type and binding, visibility, place, value, size
sub relocation { return pack 'Q< L<2 q<', @_ }  # offset, type, symbol, addend
sub note { return pack('L<3', length $_[1], length $_[2], $_[0]) . "$_[1]$_[2]" }  # type, name, descriptor
sub entries { return pack 'Q<*', @_ }           # tag and value, tag and value ..
# A member of an archive: its name as its header has it, and its data.
sub member {
    return sprintf("%-16s%-12d%-6d%-6d%-8s%-10d`\n", $_[0], 0, 0, 0, '644', length $_[1]) . $_[1] . (length($_[1]) % 2 ? "\n" : '');
}

# Writes a file of bytes at offsets; between them are zeros, without taking room if the system can.
sub file {
    my ($name, %at) = @_;
    open my $file, '+>', $name or die "$name: $!";
    for my $offset (sort { $a <=> $b } keys %at) {
        sysseek $file, $offset, 0 or die $!;
        syswrite($file, $at{$offset}) == length $at{$offset} or die "$name: $!";
    }
}

# A file with a symbol table of these names, and what its symbols' listing is to be.
sub file_of_names {
    my ($name, @names) = @_;
    my ($symbols, $strings, $listing) = ('', "\0", '');
    for my $i (0 .. $#names) {
        $symbols .= symbol(length $strings, 0x12, 0, 0xfff1, $i, 2 * $i);
        $strings .= "$names[$i]\0";
        my $shown = join '', map { $_ eq '\\' ? '\\\\' : /[ -~]/ ? $_ : sprintf '\\x%02x', ord } split //, substr $names[$i], 0, 256;
        $shown .= '\\+' if length $names[$i] > 256;
        $listing .= sprintf "Y     1 %10d %016x %016x FUNC    GLOBAL DEFAULT   ABS   %s\n", $i, $i, 2 * $i, $shown;
    }
    my $at = 256 + length $symbols;
    file($name, 0 => header(shoff => 64, shnum => 3), 256 => $symbols, $at => $strings,
        128 => section(type => 2, offset => 256, size => length $symbols, link => 2, entry => 24),
        192 => section(type => 3, offset => $at, size => length $strings));
    file("$name.want", 0 => $listing);
}

# A table of dynamic entries, each with a string, and what their listing is to be.
sub table_of_strings {
    my ($entries, $strings, $listing) = ('', "\0", '');
    for my $i (0 .. $#_) {
        my $at = length $strings;
        $entries .= entries(1, $at);
        $strings .= "$_[$i]\0";
        $listing .= sprintf "D %5d NEEDED           %016x %s\n", $i, $at, $_[$i];
    }
    return ($entries, $strings, $listing);
}

# Files with many notes, and with many dynamic entries, by section headers and by program headers.
sub files_of_many_rows {
    my ($notes, $listing) = ('', '');
    for my $i (0 .. 5999) {
        $notes .= note($i, sprintf("n%06d\0", $i), pack 'L<', $i);
        $listing .= sprintf "N     1 %08x 00000008 00000004 n%06d %s\n", $i, $i, unpack 'H*', pack 'L<', $i;
    }
    file('many_notes', 0 => header(shoff => 64, shnum => 2), 128 => section(type => 7, offset => 192, size => length $notes),
        192 => $notes);
    file('many_notes.want', 0 => $listing);
    (my $entries, my $strings, $listing) = table_of_strings(map { sprintf 'library_%032d', $_ } 1 .. 6000);
    my $at = 256 + length $entries;
    file('many_entries', 0 => header(shoff => 64, shnum => 3), 256 => $entries, $at => $strings,
        128 => section(type => 6, offset => 256, size => length $entries, link => 2, entry => 16),
        192 => section(type => 3, offset => $at, size => length $strings));
    file('many_entries.want', 0 => $listing);
    $entries .= entries(5, 0x700000000, 10, length $strings, 0, 0);
    $at = 256 + length $entries;
    file('many_mapped_entries', 0 => header(type => 3, phoff => 64, phnum => 2), 256 => $entries, $at => $strings,
        64 => segment(1, 4, $at, 0x700000000, 0, (length $strings) x 2, 1), 120 => segment(2, 4, 256, 0, 0, (length $entries) x 2, 8));
    file('many_mapped_entries.want', 0 => $listing . "D  6000 STRTAB           0000000700000000 \n"
        . sprintf("D  6001 STRSZ            %016x \n", length $strings) . "D  6002 NULL             0000000000000000 \n");
}

# Files without section headers, with notes and with dynamic entries, and what goes before them.
sub files_of_segments {
    my @load = (1, 5, 0, 0x400000, 0x400000);
    my %library = (0 => header(type => 3, phoff => 0x40, phnum => 2), 0x40 => segment(@load, 0xfb, 0xfb, 0x1000),
        0x78 => segment(2, 6, 0xb0, 0x4000b0, 0x4000b0, 0x40, 0x40, 8), 0xb0 => entries(1, 1, 5, 0x4000f0, 10, 11, 0, 0),
        0xf0 => "\0libc.so.6\0");
    my %note = (0 => header(type => 2, phoff => 0x40, phnum => 1), 0x40 => segment(4, 0, 0x78, 0, 0, 20, 20, 4),
        0x78 => note(1, "GNU\0", "\x2a\0\0\0"));
    file('library', %library);
    file('library_of_too_many_strings', %library, 0xb0 => entries(1, 1, 5, 0x4000f0, 10, 12, 0, 0));
    file('library_without_its_last_byte', %library, 0x40 => segment(@load, 0xfc, 0xfc, 0x1000),
        0xb0 => entries(1, 1, 5, 0x4000f0, 10, 12, 0, 0));
    file('library_half_outside', %library, 0x78 => segment(2, 6, 0xb0, 0x4000b0, 0x4000b0, 0x50, 0x50, 8));
    # With a segment more: on the page of the first, and on the next one.
    for (['covered_library', 0x400fff], ['apart_library', 0x401000]) {
        my ($name, $address) = @$_;
        file($name, %library, 0 => header(type => 3, phoff => 0x100, phnum => 3), 0x100 => $library{0x40} . $library{0x78}
            . segment(1, 6, 0, $address, $address, 0, 1, 0x1000));
    }
    file('one_note', %note);
    file('one_note_cut', %note, 0x78 => pack('L<', 9) . substr $note{0x78}, 4);
    file('one_note_outside', %note, 0x40 => segment(4, 0, 0x78, 0, 0, 21, 21, 4));
    file('long_notes', 0 => header(phoff => 0x40, phnum => 1), 0x40 => segment(4, 0, 0x78, 0, 0, 4481, 4481, 8),
        0x78 => note(7, 'n' x 4100, "\xff" x 32) . note(8, "a\\\x07\0z\0\0\0" x 36 . "\0" x 4, "\xfe" x 33));
    file('both_views', 0 => header(type => 3, phoff => 0x40, phnum => 2, shoff => 0x118, shnum => 4),
        0x40 => segment(2, 6, 0xb0, 0, 0, 0x20, 0x20, 8), 0x78 => segment(4, 4, 0xd0, 0, 0, 20, 20, 4),
        0xb0 => entries(24, 0, 0, 0) . note(1, "GNU\0", "\x2a\0\0\0") . entries(1, 1, 0, 0) . note(9, "ABC\0", '') . "\0g\0",
        0x158 => section(type => 6, offset => 0xe4, size => 0x20, link => 3, align => 8, entry => 16),
        0x198 => section(type => 7, offset => 0x104, size => 16, align => 4), 0x1d8 => section(type => 3, offset => 0x114, size => 3));
    file('segments_beyond_4_gb', 0 => header(type => 3, phoff => 0x40, phnum => 3), 0x40 => segment(2, 4, 0x110000000, 0, 0, 64, 64, 8),
        0x78 => segment(1, 4, 0x110000000, 0x7f0000000000, 0, 0x10000000, 0x10000000, 0x1000),
        0xb0 => segment(4, 4, 0x130000000, 0, 0, 16, 16, 4),
        0x110000000 => entries(14, 5, 10, 17, 5, 0x7f0008000000, 0, 0), 0x118000000 => "\0\0\0\0\0libfar.so.1",
        0x130000000 => note(2, "FAR\0", ''));
}

# A library with two versions of a symbol, and one that needs a version of another library.
sub file_of_versions {
    my @section = (flags => 2, align => 8);
    my $strings = "\0puts\0g\0f\0h\0libc.so.6\0GLIBC_2.2.5\0libf.so\0V1\0V2\0";
    file('two_versions', 0 => header(type => 3, phoff => 0x40, shoff => 0x2f0, phnum => 2, shnum => 8), 0x14 => "\1", 0x34 => "\x40",
        0x40 => segment(1, 6, 0, 0, 0, 0x2f0, 0x2f0, 0x1000) . segment(2, 6, 0x230, 0x230, 0x230, 0xc0, 0xc0, 8),
        0xb0 => pack('L<4 Q< L<6', 2, 2, 1, 6, 0x1003800, 2, 3, 0x2b60d, 0x2b60a, 0x2b60a, 0x2b60d),
        0xe0 => symbol((0) x 6) . symbol(1, 0x12, 0, 0, 0, 0) . symbol(6, 0xa1, 0, 7, 0x2a0, 8) . symbol(8, 0x12, 0, 7, 0x2a8, 1)
            . symbol(8, 0x12, 0, 7, 0x2a9, 1) . symbol(10, 0x1a, 0, 7, 0x2aa, 1),
        0x170 => $strings, 0x1a0 => pack('S<6', 0, 4, 1, 0x8002, 3, 3),
        # Definitions and needs, each with its names, or versions, after it.
        0x1b0 => pack('S<4 L<5', 1, 1, 1, 1, 0x2f895ef, 20, 28, 0x22, 0) . pack('S<4 L<5', 1, 0, 2, 1, 0x591, 20, 28, 0x2a, 0)
            . pack('S<4 L<7', 1, 0, 3, 2, 0x592, 20, 0, 0x2d, 8, 0x2a, 0),
        0x210 => pack('S<2 L<3 L< S<2 L<2', 1, 1, 12, 16, 0, 0x9691a75, 0, 4, 0x16, 0),
        0x230 => entries(1, 12, 14, 0x22, 0x6ffffef5, 0xb0, 5, 0x170, 6, 0xe0, 10, 0x30, 0x6ffffff0, 0x1a0, 0x6ffffffc, 0x1b0,
            0x6ffffffd, 3, 0x6ffffffe, 0x210, 0x6fffffff, 1, 0, 0),
        0x330 => section(@section, type => 0x6ffffff6, addr => 0xb0, offset => 0xb0, size => 0x30, link => 2)
            . section(@section, type => 11, addr => 0xe0, offset => 0xe0, size => 0x90, link => 3, info => 1, entry => 24)
            . section(@section, type => 3, addr => 0x170, offset => 0x170, size => 0x30)
            . section(@section, type => 0x6fffffff, addr => 0x1a0, offset => 0x1a0, size => 12, link => 2, entry => 2)
            . section(@section, type => 0x6ffffffd, addr => 0x1b0, offset => 0x1b0, size => 0x5c, link => 3, info => 3)
            . section(@section, type => 0x6ffffffe, addr => 0x210, offset => 0x210, size => 0x20, link => 3, info => 1)
            . section(@section, type => 6, addr => 0x230, offset => 0x230, size => 0xc0, link => 3, entry => 16));
}

# The bytes of a file.
sub bytes_of {
    open my $file, '<', $_[0] or die "$_[0]: $!";
    local $/;
    return <$file>;
}

# Files to check, and archives.
sub files_among_others {
    my ($one, $versions, $magic) = (bytes_of('one_symbol_table'), bytes_of('two_versions'), "!<arch>\n");
    # The words of versions have a byte less, which only their listing reads.
    file('versions_not_whole', 0 => $versions, 0x410 => "\x0b");
    mkdir $_ or die $! for 'tree', 'tree/b', 'tree/b/c', 'tree/empty', 'odd_names';
    file("tree/$$_[0]", 0 => $$_[1]) for ['a', $one], ['b/c/last', $one], ['b/cut', substr $one, 0, 63], ['b.o', 'text'];
    symlink 'a', 'tree/link' or die $!;
    symlink '..', 'tree/b/up' or die $!;
    file("odd_names/$_", 0 => $one) for "bad\xff", "new\nline", 'plain', "worse\xfe";
    file('list', 0 => "one_call\0text\0tree/b\0missing");
    file('odd_list', 0 => "text\0bad\xff\0" . 'n' x 65536 . "\0\0text\0");
    file('archive', 0 => $magic . member('text/', 'text') . member('one.o/', $one) . member('b c/', ''));
    file('archive_of_refused', 0 => $magic . member('cut.o/', substr $one, 0, 5) . member('last/', 'x'));
    file('archive_of_versions', 0 => $magic . member('v.so/', $versions));
    file('archive_cut', 0 => $magic . member('text/', 'text') . 'x' x 59);
    file('archive_thin', 0 => "!<thin>\n" . member('text/', 'text'));
}

# Files for listings under options, and of what a header or a name may have.
sub files_under_options {
    my @symbols = (type => 2, offset => 0x40, link => 2, entry => 24);
    my %table = (0 => header(shoff => 0x78, shnum => 3), 0x58 => symbol(1, 0x12, 0, 0xfff1, 0x1000, 0x10), 0x70 => "\0main\0",
        0xb8 => section(@symbols, size => 48, info => 1, align => 8), 0xf8 => section(type => 3, offset => 0x70, size => 6, align => 1));
    file('without_its_last_byte', %table);
    truncate 'without_its_last_byte', 311 or die $!;
    file('far_symbols', %table, 0xb8 => section(@symbols, size => 24, info => 1, align => 8, offset => ~7));
    file('extended_segments', 0 => header(phnum => 0xffff), 0x36 => "\0\0");
    file('extended_sections', 0 => header(shoff => 64));
    my %letters = (0 => header(shoff => 0x60, shnum => 3), 0x40 => symbol(1, 0, 0, 0, 0, 0), 0x58 => "\0abc\0",
        0xa0 => section(@symbols, size => 24), 0xe0 => section(type => 3, offset => 0x58, size => 5));
    file('three_letters', %letters);
    file('unended_letters', %letters, 0xe0 => section(type => 3, offset => 0x58, size => 4));
    file('places', 0 => header(shoff => 0xb8, shnum => 3), 0x40 => join('', map { symbol(0, 0x9d, 0, $_, 0, 0) } 0, 1, 0xfff1, 0xfff2, 0xff05),
        0xf8 => section(@symbols, size => 120), 0x138 => section(type => 3, offset => 0xb8, size => 1));
    my $note = pack('L<3', 5, 4, 1) . "ABCD\0" . "\0" x 7 . "\1\2\3\4";
    for ([8, 'notes_of_eight'], [4, 'notes_of_four']) {
        my ($align, $name) = @$_;
        file($name, 0 => header(shoff => 64, shnum => 2), 128 => section(type => 7, offset => 192, size => 28, align => $align), 192 => $note);
    }
    # 1,200,000 symbols, all zeros, without taking room if the system can.
    file('hundred_megabytes', 0 => header(shoff => 64, shnum => 3), 128 => section(@symbols, offset => 256, size => 24 * 1200000),
        192 => section(type => 3, offset => 256, size => 1), 255 + 24 * 1200000 => "\0");
}

# Files with a hash table of one bucket: two symbols whose chain goes round, the same otherwise, and
# symbols with long and odd names.
sub files_to_look_up {
    my %cycle = (0 => header(type => 3, shoff => 0xa8, shnum => 4), 0x40 => pack('L<6', 1, 3, 1, 0, 2, 1),
        0x70 => symbol(1, 0x12, 0, 0xfff1, 0x10, 0), 0x88 => symbol(3, 0x12, 0, 0xfff1, 0x20, 0), 0xa0 => "\0a\0b\0",
        0xe8 => section(type => 5, offset => 0x40, size => 0x18, link => 2, entry => 4),
        0x128 => section(type => 11, offset => 0x58, size => 0x48, link => 3, info => 1, entry => 24),
        0x168 => section(type => 3, offset => 0xa0, size => 5));
    my %words = (hash_cycle => [1, 3, 1, 0, 2, 1], hash_chain => [1, 3, 1, 0, 2, 0], hash_word_outside => [1, 3, 1, 0, 9, 0],
        hash_self => [1, 3, 1, 0, 1, 1], hash_bucket_outside => [1, 3, 3, 0, 2, 1], hash_no_buckets => [0, 3, 1, 0, 2, 1],
        hash_empty_bucket => [1, 3, 0, 0, 2, 1], hash_many_chains => [1, 4, 1, 0, 2, 1], hash_many_buckets => [0xffffffff, 3, 1, 0, 2, 1]);
    file($_, %cycle, 0x40 => pack 'L<6', @{$words{$_}}) for keys %words;
    file('hash_small', %cycle, 0xe8 => section(type => 5, offset => 0x40, size => 7, link => 2));
    file('hash_unlinked', %cycle, 0xe8 => section(type => 5, offset => 0x40, size => 0x18, link => 0));
    file('hash_outside', %cycle, 0xe8 => section(type => 5, offset => 0x1a0, size => 0x18, link => 2));
    file('hash_name_outside', %cycle, 0x88 => symbol(5, 0x12, 0, 0xfff1, 0x20, 0));
    my ($symbols, $strings, @chain) = (symbol((0) x 6), "\0", 0);
    for my $name ('n' x 63, 'n' x 64, 'n' x 65, 'n' x 4095, 'n' x 4096, 'n' x 4097, '--headers', '-', "a\\b\a~ \xc3\xa9") {
        $symbols .= symbol(length $strings, 0x21, 2, 0, scalar @chain, 0);
        $strings .= "$name\0";
        push @chain, scalar @chain + 1;
    }
    $chain[-1] = 0;
    my $hash = pack 'L<*', 1, scalar @chain, 1, @chain;
    my $at = 320 + length $hash;
    file('hash_names', 0 => header(type => 3, shoff => 64, shnum => 4), 320 => $hash . $symbols . $strings,
        128 => section(type => 5, offset => 320, size => length $hash, link => 2),
        192 => section(type => 2, offset => $at, size => length $symbols, link => 3, entry => 24),
        256 => section(type => 3, offset => $at + length $symbols, size => length $strings));
}

# Files for `apply`: one entry for section 1, and what may be wrong with it; entries that overlap, in both
# orders; sections of many bytes.
sub files_to_apply {
    my %call = (0 => header(shoff => 0x98, shnum => 5), @_);
    my %wrong = (call_weak => [0x78 => symbol(1, 0x20, 0, 0, 0, 0)], call_past_the_end => [0x48 => relocation(2, 4, 1, -4)],
        call_at_no_place => [0x48 => relocation(-1, 4, 1, -4)], call_of_another_type => [0x48 => relocation(1, 9, 1, -4)],
        call_of_a_thread => [0x48 => relocation(1, 22, 1, -4)],
        call_of_no_symbol => [0x48 => relocation(1, 4, 2, -4)], call_of_none => [0x48 => relocation(9, 0, 9, 0)],
        call_common => [0x78 => symbol(1, 0x20, 0, 0xfff2, 8, 8)], call_absolute => [0x78 => symbol(1, 0x10, 0, 0xfff1, 0x3000, 0)],
        call_itself => [0x78 => symbol(1, 0x10, 0, 1, 2, 0)], call_reserved => [0x78 => symbol(1, 0x10, 0, 0xff01, 2, 0)],
        call_of_symbol_0 => [0x48 => relocation(1, 2, 0, 0x3000)], call_of_a_bad_name => [0x78 => symbol(3, 0x10, 0, 0, 0, 0)],
        call_in_a_part => [0x118 => section(type => 4, offset => 0x48, size => 25, link => 3, info => 1, entry => 24)],
        call_outside => [0xd8 => section(type => 1, offset => 0x1d5, size => 4)],
        call_in_no_bytes => [0xd8 => section(type => 8, offset => 0x40, size => 5)],
        call_of_an_odd_name => [0x90 => "\0\xff\\\0", 0x198 => section(type => 3, offset => 0x90, size => 4)],
        call_of_no_name => [0x78 => symbol(0, 0x10, 0, 0, 0, 0)],
        map({ ("call_of_${_}_bytes" => [0x1d8 => "\0" . 'n' x $_ . "\0", 0x198 => section(type => 3, offset => 0x1d8, size => $_ + 2)]) } 255, 256),
        call_indirect => [0x78 => symbol(1, 0x1a, 0, 1, 0x30, 0)], call_indirect_undefined => [0x78 => symbol(1, 0x1a, 0, 0, 0, 0)],
        pointer_indirect => [0x48 => relocation(1, 10, 1, 0), 0x78 => symbol(1, 0x1a, 0, 0xfff1, 0x30, 0)],
        entry_indirect => [0x48 => relocation(1, 9, 1, -4), 0x78 => symbol(1, 0x1a, 0, 1, 0x30, 0)],
        pointer_of_a_system => [0x48 => relocation(1, 10, 1, 0), 0x78 => symbol(1, 0x1b, 0, 1, 0x30, 0)],
        call_compressed => [0xd8 => section(type => 1, flags => 0x806, offset => 0x1d5, size => 4)],
        call_executable => [0 => header(type => 2, shoff => 0x98, shnum => 5)]);
    file($_, %call, @{$wrong{$_}}) for keys %wrong;
    my %two = (0 => header(shoff => 0x78, shnum => 3), 0xb8 => section(type => 1, flags => 6, offset => 0x40, size => 8),
        0xf8 => section(type => 4, flags => 0x40, offset => 0x48, size => 48, info => 1, entry => 24));
    file('overlapping_turned', %two, 0x48 => relocation(2, 12, 0, 0xffff), 0x60 => relocation(0, 10, 0, 0x11223344));
    file('overlapping_and_a_third', 0 => header(shoff => 0x90, shnum => 3), 0x48 => relocation(0, 10, 0, 0x11223344),
        0x60 => relocation(2, 12, 0, 0xffff), 0x78 => relocation(4, 10, 0, -1),
        0xd0 => section(type => 1, flags => 6, offset => 0x40, size => 8),
        0x110 => section(type => 4, flags => 0x40, offset => 0x48, size => 72, info => 1, entry => 24));
    file_of_halves('halves', 128, [0, 0x102], [62, 0x304], [63, 0x506], [126, 0x708]);
    file_of_halves('halves_turned', 128, [0, 0x102], [62, 0x304], [126, 0x708], [63, 0x506]);
    file('halves_without_bytes', 0 => header(shoff => 64, shnum => 2), 128 => section(type => 8, size => 128));
    file_of_halves('halves_and_overflow', 128, [0, 1], [126, 0x10000]);
    # Sections of a megabyte, in one pass and window by window.
    my $end = 1000000 - 2;
    file_of_halves('megabyte', $end + 2, [0, 0x4241], [499999, 0x4443], [$end, 0x4645]);
    file_of_halves('megabyte_turned', $end + 2, [0, 0x4241], [$end, 0x4645], [499999, 0x4443]);
    my $bytes = "\0" x ($end + 2);
    substr $bytes, 0, 2, 'AB';
    substr $bytes, 499999, 2, 'CD';
    substr $bytes, $end, 2, 'EF';
    file('megabyte.want', 0 => $bytes);
}

# A file whose section 1 has a given number of zero bytes, with an entry of 16 bits for each offset and addend.
sub file_of_halves {
    my ($name, $size, @halves) = @_;
    my $entries = join '', map { relocation($$_[0], 12, 0, $$_[1]) } @halves;
    my $at = 256 + length $entries;
    file($name, 0 => header(shoff => 64, shnum => 3), 256 => $entries, $at => "\0" x $size,
        128 => section(type => 1, flags => 6, offset => $at, size => $size),
        192 => section(type => 4, offset => 256, size => length $entries, info => 1, entry => 24));
}

sub files {
    my @table = (type => 2, offset => 0x40, size => 288, link => 4, align => 8, entry => 24);
    my @one_call = (
        0x40 => "\xe8", 0x48 => relocation(1, 4, 1, -4), 0x78 => symbol(1, 0x10, 0, 0, 0, 0), 0x90 => "\0f\0",
        0xd8 => section(type => 1, flags => 6, offset => 0x40, size => 5),
        0x118 => section(type => 4, flags => 0x40, offset => 0x48, size => 24, link => 3, info => 1, entry => 24),
        0x158 => section(type => 2, offset => 0x60, size => 48, link => 4, info => 1, entry => 24),
        0x198 => section(type => 3, offset => 0x90, size => 3));
    file('one_symbol_table', 0 => header(shoff => 0x78, shnum => 3),
        0x58 => symbol(1, 0x12, 0, 0xfff1, 0x1000, 0x10), 0x70 => "\0main\0",
        0xb8 => section(type => 2, offset => 0x40, size => 48, link => 2, info => 1, align => 8, entry => 24),
        0xf8 => section(type => 3, offset => 0x70, size => 6, align => 1));
    file('tables_over_headers', 0 => header(shoff => 0x40, shnum => 5), 0x80 => section(@table),
        0xc0 => section(@table), 0x100 => section(@table), 0x140 => section(type => 3, offset => 0x40, size => 320));
    file('overlapping', 0 => header(shoff => 0x78, shnum => 3),
        0x48 => relocation(0, 10, 0, 0x11223344), 0x60 => relocation(2, 12, 0, 0xffff),
        0xb8 => section(type => 1, flags => 6, offset => 0x40, size => 8),
        0xf8 => section(type => 4, flags => 0x40, offset => 0x48, size => 48, info => 1, entry => 24));
    file('one_call', 0 => header(shoff => 0x98, shnum => 5), @one_call);
    file('call_of_another_machine', 0 => header(shoff => 0x98, shnum => 5, machine => 183), @one_call);
    file('executable', 0 => header(type => 2, phoff => 0x40, phnum => 1),
        0x40 => segment(1, 5, 0, 0x400000, 0x400000, 0x78, 0x78, 0x1000));
    file('empty');
    file('cut_in_the_header', 0 => substr header(), 0, 63);
    file('class_1', 0 => header(), 4 => "\1");
    file('text', 0 => 'no object file, ' x 4);
    file('cut_in_the_table', 0 => header(shoff => 64, shnum => 1), 127 - 1 => "\0");
    file('unlinked', 0 => header(shoff => 64, shnum => 2),
        128 => section(type => 2, offset => 64, size => 24, link => 2, entry => 24));
    my @headers = (64 + 64 * 4095 => section(type => 1, addr => 7), 64 + 64 * 4096 => segment(1, 4, (0) x 6) x 4096);
    file('many_headers', 0 => header(shoff => 64, shnum => 4096, phoff => 64 + 64 * 4096, phnum => 4096), @headers);
    file('sections.want', 0 => join '', map {
        sprintf "S %5d %-13s              %016x %016x %016x %08x %08x \n", $_, $_ < 4095 ? 'NULL' : 'PROGBITS', $_ < 4095 ? 0 : 7, (0) x 4
    } 0 .. 4095);
    file('segments.want', 0 => join '', map { sprintf "P %5d LOAD     R--%s\n", $_, ' 0000000000000000' x 6 } 0 .. 4095);
    file('too_many_headers', 0 => header(shoff => 64, shnum => 4097), @headers);
    # The lines of these names fill a pipe's page, and so the program's buffer, to the byte.
    file_of_names('many_symbols', map { sprintf 'symbol_%036d', $_ } 1 .. 6000);
    file_of_names('long_names', map({ 'n' x $_ } 1, 63, 64, 65, 127, 128, 255, 256, 257, 320, 5000), "a\\b\a\xff~ z");
    file('beyond_4_gb', 0 => header(shoff => 0x140000000, shnum => 3, names => 2),
        0x110000000 => symbol(0, 0, 0, 0, 0, 0) . symbol(1, 0x12, 0, 0xfff1, 0x1000, 0x10), 0x120000000 => "\0main\0.symtab\0",
        0x140000040 => section(name => 6, type => 2, offset => 0x110000000, size => 48, link => 2, entry => 24),
        0x140000080 => section(type => 3, offset => 0x120000000, size => 14));
    files_of_many_rows();
    files_of_segments();
    file_of_versions();
    files_under_options();
    files_to_look_up();
    files_to_apply(@one_call);
    files_among_others();
    socket my $socket, AF_UNIX, SOCK_STREAM, 0 or die $!;
    bind $socket, sockaddr_un('socket') or die $!;
}

# Starts a command with a handle as its standard output.
sub start {
    my ($out, @command) = @_;
    my $child = fork // die $!;
    return $child if $child;
    open STDOUT, '>&', $out or die $!;
    exec @command or die "$command[0]: $!";
}

# Ends as a command that was started.
sub end {
    waitpid $_[0], 0;
    exit($? & 127 ? 128 + ($? & 127) : $? >> 8);
}

# Gives a command a pipe that nobody reads.
sub unread {
    pipe my $near, my $far or die $!;
    close $near;
    end(start($far, @_));
}

# Gives a command a pipe whose reader goes away after a given number of bytes.
sub leaves {
    my ($bytes, @command) = @_;
    pipe my $near, my $far or die $!;
    my $child = start($far, @command);
    close $far;
    while ($bytes > 0) {
        $bytes -= sysread $near, my $piece, 65536 or last;
    }
    close $near;
    end($child);
}

# Gives a command a socket that keeps its writes apart, passes on what it wrote, and complains of too many.
sub pieces {
    my ($most, @command) = @_;
    socketpair my $near, my $far, AF_UNIX, SOCK_SEQPACKET, PF_UNSPEC or die $!;
    my $child = start($far, @command);
    close $far;
    my $count = 0;
    while (sysread $near, my $piece, 1 << 20) {
        print $piece;
        $count++;
    }
    print STDERR "written in $count pieces\n" if $count > $most;
    end($child);
}

# Waits until a given number of bytes are in a pipe.
sub await {
    my ($pipe, $bytes) = @_;
    for (1 .. 500) {
        my $there = pack 'L', 0;
        ioctl $pipe, 0x541b, $there or die $!;  # FIONREAD
        return if unpack('L', $there) >= $bytes;
        select undef, undef, undef, 0.01;
    }
}

# Gives a command a pipe of one page. Once the command waits to write more, the file that it reads loses all
# its bytes. Of what it writes 15 pages are passed on. Then the pipe is read to its end, or closed.
sub shrinks {
    my ($how, $file, @command) = @_;
    pipe my $near, my $far or die $!;
    fcntl $far, 1031, 4096 or die $!;           # F_SETPIPE_SZ
    my $child = start($far, @command);
    close $far;
    await($near, 4096);
    truncate $file, 0 or die $!;
    my $text = '';
    while (length $text < 15 * 4096) {
        sysread $near, $text, 4096, length $text or last;
    }
    await($near, 4096);
    if ($how eq 'read') {
        1 while sysread $near, $text, 4096, length $text;
    }
    close $near;
    print $text;
    end($child);
}

# Says where two files first differ.
sub differ {
    my @lines = map { open my $file, '<', $_ or die $!; [<$file>] } @_;
    my $at = 0;
    $at++ while defined $lines[0][$at] && defined $lines[1][$at] && $lines[0][$at] eq $lines[1][$at];
    my @shown = map { my $line = substr $$_[$at] // '(the end)', 0, 140; $line =~ s/([^ -~])/sprintf '\\x%02x', ord $1/ge; $line } @lines;
    printf "line %d, wanted '%s', got '%s'", $at + 1, @shown;
}

my $task = shift;
main->can($task)->(@ARGV);
