# Completion of elfsee for bash.

# Prints the options of COMMAND that are not given yet.
_elfsee_options() {
    local option given
    case $1 in
    show | archive) set -- --headers --names --max-read --only --gnu --by-segments --json --table --versions --name --name-list --defined --undefined --dynamic --at --address ;;
    sample) set -- --headers --names --max-read --only --gnu --by-segments --json --table --versions ;;
    check) set -- --headers --names --max-read --only --gnu --by-segments --json --table --members --files0-from ;;
    list) set -- --headers --names --max-read --only --gnu --by-segments --json --table --versions --name --name-list --defined --undefined --dynamic --at --address --members --files0-from ;;
    find) set -- --headers --max-read --gnu --by-segments --json --table ;;
    apply) set -- --headers --max-read --layout --explain ;;
    bytes) set -- --headers --max-read --segment ;;
    image) set -- --headers --max-read --layout --max-write --leave --missing ;;
    needs | deps) set -- --headers --max-read --max-tries --library-path --default --root --cache --no-cache --symbols --unused --problems --json --table --files0-from ;;
    resolve) set -- --headers --max-read --keys --key-bytes --index --rows --problems --json ;;
    traits | hardening) set -- --headers --max-read --require --json --table --files0-from ;;
    *) set -- ;;
    esac
    for option in "$@" --help; do
        for given in "${words[@]:1:cword-1}"; do
            [[ $option != --name && ($given == "$option" || $given == "$option="*) ]] && continue 2
        done
        printf '%s\n' "$option"
    done
}

# Sets the words of a command line up to the cursor, none of which is split at an equals sign or a colon.
_elfsee_words() {
    words=("${COMP_WORDS[0]}") cword=0
    local word joins=
    for word in "${COMP_WORDS[@]:1:COMP_CWORD}"; do
        if [[ $word == [:=]* && $cword -gt 0 ]]; then
            words[cword]+=$word joins=1
        elif [[ $joins ]]; then
            words[cword]+=$word joins=
        else
            words[++cword]=$word
        fi
    done
}

# Completes the last word as an item of `apply`, which readline splits at its colon.
_elfsee_items() {
    [[ $current == *:* ]] && return
    mapfile -t COMPREPLY < <(compgen -W 'at: def: plt: got: tpgot:' -- "$current")
    compopt -o nospace
}

# Leaves the last word to bash's own completion of files.
_elfsee_files() {
    compopt -o default -o bashdefault
}

_elfsee() {
    local words cword current before command='' word ended='' skip='' files=0
    local parts='header sections segments symbols relocs notes dynamic versions'
    COMPREPLY=()
    _elfsee_words
    current=${words[cword]} before=${words[cword - 1]}
    for word in "${words[@]:1:cword-1}"; do
        if [[ $skip ]]; then
            skip=
        elif [[ $ended ]]; then
            files=$((files + 1))
        else
            case $word in
            --) ended=1 before= ;;
            --headers | --max-headers | --names | --max-name-len | --max-read | --max-write | --max-tries | --keys | --key-bytes | --index | --rows | --only | -o | --name | -n | --name-list | --at | --address | --layout | --segment | --require | --library-path | --default | --root | --sysroot | --cache | --files0-from) skip=1 ;;
            -*) ;;
            *) if [[ $command ]]; then files=$((files + 1)); else command=$word; fi ;;
            esac
        fi
    done
    [[ $command == archive ]] && parts="members $parts"
    if [[ -z $ended ]]; then
        case $before in
        --only | -o)
            mapfile -t COMPREPLY < <(compgen -W "$parts" -- "$current")
            return
            ;;
        --headers | --max-headers | --names | --max-name-len | --max-read | --max-write | --max-tries | --keys | --key-bytes | --index | --rows | --name | -n | --segment | --require | --library-path | --default) return ;;
        --name-list | --layout | --root | --sysroot | --cache | --files0-from)
            _elfsee_files
            return
            ;;
        esac
        case $current in
        --only=*)
            mapfile -t COMPREPLY < <(compgen -W "$parts" -- "${current#*=}")
            return
            ;;
        --*=*) return ;;
        -*)
            mapfile -t COMPREPLY < <(compgen -W "$(_elfsee_options "$command")" -- "$current")
            return
            ;;
        esac
    fi
    case $command in
    '') mapfile -t COMPREPLY < <(compgen -W 'show sample find apply bytes image check list traits needs resolve archive explain version help' -- "$current") ;;
    help) [[ $files != 0 ]] || mapfile -t COMPREPLY < <(compgen -W 'show sample find apply bytes image check list traits needs resolve archive explain version' -- "$current") ;;
    show | find | bytes | image | archive) [[ $files != 0 ]] || _elfsee_files ;;
    check | list | traits | hardening | needs | deps | resolve) _elfsee_files ;;
    apply)
        case $files in
        0) _elfsee_files ;;
        1) ;;
        *) _elfsee_items ;;
        esac
        ;;
    esac
}

complete -F _elfsee elfsee
