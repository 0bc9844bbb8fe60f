# Completion of elfsee for fish.

set -l commands show sample find apply bytes image check list traits needs resolve archive explain version help
set -l listing '__fish_seen_subcommand_from show sample check list archive'
set -l parts 'header\t"the file header"
sections\t"the section headers"
segments\t"the program headers"
symbols\t"the symbols"
relocs\t"the relocation entries"
notes\t"the notes"
dynamic\t"the dynamic entries"
versions\t"the symbol versions, with --gnu"'
set -l members 'members\t"only the members"'

# Prints the words after the program's name that are no options, and an empty line if the value of an
# option comes next.
function __elfsee_plain_words
    set -l words (commandline -opc)
    set -e words[1]
    set -l plain
    set -l skip
    set -l ended
    for word in $words
        if set -q skip[1]
            set -e skip
        else if set -q ended[1]
            set -a plain $word
        else if test "$word" = --
            set ended 1
        else if contains -- $word --headers --max-headers --names --max-name-len --max-read --max-write --max-tries --keys --key-bytes --index --rows --only --name --name-list --at --address --layout --segment --require --library-path --default --root --sysroot --cache --files0-from
            set skip 1
        else if not string match -q -- '-*' $word
            set -a plain $word
        end
    end
    set -q skip[1]; and set plain ''
    printf '%s\n' $plain
end

# Succeeds if the file is not named yet.
function __elfsee_wants_file
    set -l plain (__elfsee_plain_words)
    test (count $plain) -eq 1; and contains -- $plain[1] show find apply bytes image archive; and return
    test (count $plain) -ge 1; and contains -- $plain[1] check list traits hardening needs deps resolve
end

# Succeeds if items of a layout may follow.
function __elfsee_wants_item
    set -l plain (__elfsee_plain_words)
    test (count $plain) -ge 3; and test $plain[1] = apply
end

# Succeeds if an option is not given yet, or its value comes next.
function __elfsee_lacks
    set -l words (commandline -opc)
    test "$words[-1]" = $argv[1]; or not string match -q -- "$argv[1]*" $words
end

complete -c elfsee -f
complete -c elfsee -n "not __fish_seen_subcommand_from $commands" -a show -d 'list a whole file or parts of it'
complete -c elfsee -n "not __fish_seen_subcommand_from $commands" -a sample -d 'list a small file that is built into the program'
complete -c elfsee -n "not __fish_seen_subcommand_from $commands" -a find -d 'look up a name in the hash table of a file'
complete -c elfsee -n "not __fish_seen_subcommand_from $commands" -a apply -d 'write a section with its relocations applied'
complete -c elfsee -n "not __fish_seen_subcommand_from $commands" -a bytes -d 'write the bytes of a section or of a segment'
complete -c elfsee -n "not __fish_seen_subcommand_from $commands" -a image -d 'write a segment as a loader leaves it'
complete -c elfsee -n "not __fish_seen_subcommand_from $commands" -a check -d 'check many files: which are malformed, where and why'
complete -c elfsee -n "not __fish_seen_subcommand_from $commands" -a list -d 'list many files, whole or parts of each'
complete -c elfsee -n "not __fish_seen_subcommand_from $commands" -a traits -d 'print how each of many files is hardened'
complete -c elfsee -n "not __fish_seen_subcommand_from $commands" -a needs -d 'print which libraries programs need and where they are'
complete -c elfsee -n "not __fish_seen_subcommand_from $commands" -a resolve -d 'print where a linker takes each symbol of a link from'
complete -c elfsee -n "not __fish_seen_subcommand_from $commands" -a archive -d 'list the members of an archive, and their contents'
complete -c elfsee -n "not __fish_seen_subcommand_from $commands" -a explain -d 'print what causes and states mean'
complete -c elfsee -n "not __fish_seen_subcommand_from $commands" -a version -d 'print the version of the program'
complete -c elfsee -n "not __fish_seen_subcommand_from $commands" -a help -d 'print the commands and options'
complete -c elfsee -n '__fish_seen_subcommand_from help; and test (count (commandline -opc)) -eq 2' -a 'show sample find apply bytes image check list traits needs resolve archive explain version'
complete -c elfsee -n __elfsee_wants_file -F
complete -c elfsee -n __elfsee_wants_item -a at: -d 'the address of a section, at:INDEX=ADDR'
complete -c elfsee -n __elfsee_wants_item -a def: -d 'the address of an undefined or common symbol, def:NAME=ADDR'
complete -c elfsee -n __elfsee_wants_item -a plt: -d 'the address of an entry in the procedure linkage table, plt:NAME=ADDR'
complete -c elfsee -n __elfsee_wants_item -a got: -d 'the address of an entry in the global offset table, got:NAME=ADDR'
complete -c elfsee -n __elfsee_wants_item -a tpgot: -d 'the address of an entry there of an offset from the thread pointer, tpgot:NAME=ADDR'
complete -c elfsee -n "__fish_seen_subcommand_from show sample find apply bytes image check list traits needs archive; and __elfsee_lacks --headers" -l headers -x -d 'allow this many headers of each kind, 1 to 65279 [4096]'
complete -c elfsee -n "$listing; and __elfsee_lacks --names" -l names -x -d 'show at most this many bytes of a name, 1 to 4096 [256]'
complete -c elfsee -n "__fish_seen_subcommand_from show sample find apply bytes image check list traits needs resolve archive; and __elfsee_lacks --max-read" -l max-read -x -d 'read at most this many bytes of the file'
complete -c elfsee -n "$listing; and __elfsee_lacks --only" -s o -l only -x -a $parts -d 'list one part'
complete -c elfsee -n '__fish_seen_subcommand_from archive; and __elfsee_lacks --only' -s o -l only -x -a $members -d 'list one part'
complete -c elfsee -n "$listing; and __elfsee_lacks --gnu" -s g -l gnu -d 'also name the numbers defined by GNU, and list symbol versions'
complete -c elfsee -n '__fish_seen_subcommand_from find; and __elfsee_lacks --gnu' -s g -l gnu -d 'find the symbol that glibc picks; the name may have a version'
complete -c elfsee -n '__fish_seen_subcommand_from find; and __elfsee_lacks --by-segments' -s D -l by-segments -d 'with --gnu: find the tables by the program headers'
complete -c elfsee -n "$listing; and __elfsee_lacks --by-segments" -s D -l by-segments -d 'find tables by the program headers'
complete -c elfsee -n "__fish_seen_subcommand_from show sample find check list traits needs resolve archive; and __elfsee_lacks --json" -s j -l json -d 'print each line as a JSON object'
complete -c elfsee -n "__fish_seen_subcommand_from show sample find check list traits needs archive; and __elfsee_lacks --table" -s t -l table -d 'print a table with the names of its columns; implies --gnu and --versions'
complete -c elfsee -n '__fish_seen_subcommand_from show sample list archive; and __elfsee_lacks --versions' -l versions -d 'with --gnu: append its version to the name of a symbol'
complete -c elfsee -n '__fish_seen_subcommand_from show list archive' -s n -l name -x -d 'show only the rows with this name'
complete -c elfsee -n '__fish_seen_subcommand_from show list archive; and __elfsee_lacks --name-list' -l name-list -r -F -d 'also show the rows with the names in a file, one per line'
complete -c elfsee -n '__fish_seen_subcommand_from show list archive; and __elfsee_lacks --defined' -l defined -d 'of symbols, show only the defined ones'
complete -c elfsee -n '__fish_seen_subcommand_from show list archive; and __elfsee_lacks --undefined' -l undefined -d 'of symbols, show only the undefined ones'
complete -c elfsee -n '__fish_seen_subcommand_from show list archive; and __elfsee_lacks --dynamic' -l dynamic -d 'of symbols, show only those of dynamic symbol tables'
complete -c elfsee -n '__fish_seen_subcommand_from show list archive; and __elfsee_lacks --at' -l at -x -d 'show only the rows at this byte of the file'
complete -c elfsee -n '__fish_seen_subcommand_from show list archive; and __elfsee_lacks --address' -l address -x -d 'show only the rows of this address'
complete -c elfsee -n '__fish_seen_subcommand_from traits; and __elfsee_lacks --require' -l require -x -d 'print which of these words each program and library lacks'
complete -c elfsee -n '__fish_seen_subcommand_from needs; and __elfsee_lacks --max-tries' -l max-tries -x -d 'try at most so many paths for a file'
complete -c elfsee -n '__fish_seen_subcommand_from needs; and __elfsee_lacks --library-path' -l library-path -x -d 'also search these directories for libraries'
complete -c elfsee -n '__fish_seen_subcommand_from needs; and __elfsee_lacks --default' -l default -x -d 'search these directories last'
complete -c elfsee -n '__fish_seen_subcommand_from needs; and __elfsee_lacks --symbols' -l symbols -d 'also print which object each symbol comes from'
complete -c elfsee -n '__fish_seen_subcommand_from needs; and __elfsee_lacks --unused' -l unused -d 'also print which libraries the program names and uses nothing of'
complete -c elfsee -n '__fish_seen_subcommand_from needs resolve; and __elfsee_lacks --problems' -l problems -d 'print only the lines that make the status 1'
complete -c elfsee -n '__fish_seen_subcommand_from needs; and __elfsee_lacks --root' -l root -r -F -d 'take each path that begins with a slash relative to a directory'
complete -c elfsee -n '__fish_seen_subcommand_from needs; and __elfsee_lacks --cache' -l cache -r -F -d "search the loader's cache in a file"
complete -c elfsee -n '__fish_seen_subcommand_from needs; and __elfsee_lacks --no-cache' -l no-cache -d "do not search a loader's cache"
complete -c elfsee -n '__fish_seen_subcommand_from resolve; and __elfsee_lacks --headers' -l headers -x -d 'allow this many headers of each kind, 1 to 65279 [65279]'
complete -c elfsee -n '__fish_seen_subcommand_from resolve; and __elfsee_lacks --keys' -l keys -x -d 'allow this many names of symbols, 1 to 16777216 [262144]'
complete -c elfsee -n '__fish_seen_subcommand_from resolve; and __elfsee_lacks --key-bytes' -l key-bytes -x -d 'allow this many bytes of names, 1 to 1073741824 [16777216]'
complete -c elfsee -n '__fish_seen_subcommand_from resolve; and __elfsee_lacks --index' -l index -x -d 'allow this many entries of the indexes of archives, 1 to 16777216 [262144]'
complete -c elfsee -n '__fish_seen_subcommand_from resolve; and __elfsee_lacks --rows' -l rows -x -d 'allow this many files and members of archives, 1 to 16777216 [16384]'
complete -c elfsee -n '__fish_seen_subcommand_from check list; and __elfsee_lacks --members' -l members -d 'also read the members of archives'
complete -c elfsee -n '__fish_seen_subcommand_from check list traits needs; and __elfsee_lacks --files0-from' -l files0-from -r -F -d 'also take the paths in a file, each ended by a NUL byte'
complete -c elfsee -n '__fish_seen_subcommand_from apply image; and __elfsee_lacks --layout' -l layout -r -F -d 'also take the items in a file, one per line'
complete -c elfsee -n '__fish_seen_subcommand_from apply; and __elfsee_lacks --explain' -l explain -d 'if an address is missing, print the item that would help'
complete -c elfsee -n '__fish_seen_subcommand_from bytes; and __elfsee_lacks --segment' -l segment -x -d 'write the bytes of the program header of this index'
complete -c elfsee -n '__fish_seen_subcommand_from image; and __elfsee_lacks --max-write' -l max-write -x -d 'write at most this many bytes'
complete -c elfsee -n '__fish_seen_subcommand_from image; and __elfsee_lacks --leave' -l leave -d 'let an entry that lacks an item change nothing'
complete -c elfsee -n '__fish_seen_subcommand_from image; and __elfsee_lacks --missing' -l missing -d 'print the entries that lack an item'
complete -c elfsee -s h -l help -d 'print the commands and options'
