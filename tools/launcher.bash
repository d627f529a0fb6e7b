# What the launchers of the programs share. A launcher sets `launcher`, its own name, `main`, the crate of its program,
# `usage`, its program's usage line, and `are_words`, which judges the words; then it calls `launch` with the words.
#
# `launch` runs the proved program on the words and standard input. Where it is absent or older than its sources, the
# crates that it is made of are proved first, as many side by side as processors and memory allow, and standard error
# tells each as it is done. A crate that is proved stays so: a run that was broken off is taken up where it stood.
set -u
top=$(cd "$(dirname "${BASH_SOURCE[0]}")/.." && pwd)

tell() {
    echo "$launcher: $*" >&2
}

is_current() {
    [ -x "$program" ] && [ -z "$(newer_source)" ]
}

newer_source() {
    find "$top/crates.txt" "$top/crates" -name out -prune -o \
        -type f \( -name '*.rt' -o -name '*.antt' -o -name crates.txt \) -newer "$program" -print -quit
}

is_node_name() {
    local LC_ALL=C
    [[ $1 =~ ^[A-Za-z0-9_.][A-Za-z0-9_.-]{0,252}$ ]]
}

# Exactly `--node` and a name.
is_node_alone() {
    [ $# -eq 2 ] && [ "$1" = --node ] && is_node_name "$2"
}

# The usage line and the statuses are the program's own.
refuse_words() {
    echo "$usage" || exit 4
    exit 2
}

# Adds a crate of the repository, and those below it, to `crates`.
add_crates() {
    local low
    [ -d "$top/crates/$1" ] && [ -z "${crates[$1]+added}" ] || return 0
    crates[$1]=
    for low in $(sed -n "s/^$1://p" "$top/crates.txt"); do
        add_crates "$low"
    done
}

# A repository of these crates alone, without their edits, as `rt ci` asks for one.
copy_crates() {
    local to=$1 name part
    shift
    mkdir "$to/.git" && touch "$to/crates.txt" && cp "$top/HANDLES" "$to" || return
    for name in "$@"; do
        grep "^$name:" "$top/crates.txt" >>"$to/crates.txt" || return
        mkdir -p "$to/crates/$name" || return
        for part in src specs proofs stdin stdout args status data; do
            [ ! -e "$top/crates/$name/$part" ] || cp -R "$top/crates/$name/$part" "$to/crates/$name" || return
        done
    done
}

# Reads what `rt ci` says: of a crate that is proved one line is told, and of one that isn't all that was said of it.
tell_each() {
    local of=$1 line said='' done=0
    while IFS= read -r line; do
        if [[ $line =~ ^rt:\ ([A-Za-z0-9_]+)\ (proved|is kept:.*)$ ]]; then
            done=$((done + 1))
            said=''
            tell "${BASH_REMATCH[1]} proved, $done of $of, $((SECONDS / 60)) min"
        elif [[ $line == '== '* ]]; then
            said=$line$'\n'
        elif [[ $line == rt:*' NOT PROVED'* ]]; then
            printf '%s%s\n' "$said" "$line" >&2
            said=''
        elif [[ $line == 'rt: note: '* || $line == rt:*waiting* ]]; then
            printf '%s\n' "$line" >&2
        else
            said+=$line$'\n'
        fi
    done
    rest=$said
}

# The program gets the time at which its sources were copied, so that one which was changed since is newer.
keep_program() {
    local made=$1/crates/$main/out/$main new=$program.new.$$
    mkdir -p "${program%/*}" && cp "$made" "$new" && touch -r "$1/HANDLES" "$new" && mv "$new" "$program" && return
    rm -f "$new"
    tell "the program is proved, and can't be written"
    return 1
}

# `rt ci` proves each crate once those below it are proved, the longest chain first, and keeps on this machine what is
# done.
build() {
    local -A crates=()
    local rest='' status
    add_crates "$main"
    room=$(mktemp -d) && copy_crates "$room" "${!crates[@]}" || return
    tell "proving and building the program from ${#crates[@]} crates"
    exec 3< <(cd "$room" && exec rt ci </dev/null 2>&1)
    proving=$!
    tell_each "${#crates[@]}" <&3
    exec 3<&-
    wait "$proving"
    status=$?
    proving=''
    if [ "$status" -ne 0 ]; then
        printf '%s' "$rest" >&2
        tell "the program is not proved"
        return 1
    fi
    keep_program "$room"
}

# However the build ends, what it began ends with it.
end_build() {
    if [ -n "$proving" ]; then
        kill "$proving" 2>/dev/null
        wait "$proving"
    fi
    rm -rf "$room"
}

# Words are judged here only where the program isn't there to do so. 70 is none of the program's own statuses.
launch() {
    program=$top/crates/$main/out/$main
    if ! is_current; then
        are_words "$@" || refuse_words
        room='' proving=''
        trap end_build EXIT
        build || exit 70
        end_build
        trap - EXIT
    fi
    exec "$program" "$@"
}
