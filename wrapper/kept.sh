# Where programs are kept, and which one answers; `pmu` and `.ci/run` read this file. A program is kept under the
# checksum of the sources of which it was made, as KIND.SUM. The kinds are
#   proved          the program, proved
#   unproved        before its proof, compiled with optimisation
#   unproved-slow   before its proof, compiled as `rt try` does: without optimisation, with the address sanitizer
# They are kept in out/ at the top or, if that can't be written, in a cache folder of the user's. A program is written
# beside its name and then moved there, so that no file of such a name is half a program, and none counts once a source
# is another.
#
# The variable `top` is the folder of the repository.
out=$top/out
# What a call that makes a program has begun, for the moment at which it is interrupted.
room='' children='' shown=''
# The slow program has the address sanitizer in it. These make that faster, and keep its exit apart.
export ASAN_OPTIONS=detect_leaks=0:detect_stack_use_after_return=0:malloc_context_size=0:exitcode=134

say() {
    echo "pmu: $*" >&2
}

# The program's crate with all crates below it, in the order in which they can be proved.
crates_of_program() {
    awk '
        function list(crate, uses, count, k) {
            if (!(crate in below) || crate in listed) return
            listed[crate] = 1
            count = split(below[crate], uses, " ")
            for (k = 1; k <= count; k++) list(uses[k])
            printf "%s ", crate
        }
        { sub(/#.*/, "") }
        /:/ { crate = $1; sub(/:.*/, "", crate); sub(/[^:]*:/, ""); below[crate] = $0 }
        END { list("pm_cli") }' "$1/crates.txt"
}

# The lines of crates.txt about these crates, without comments.
lines_of_crates() {
    awk -v crates=" $2" '
        { sub(/#.*/, "") }
        /:/ { crate = $1; sub(/:.*/, "", crate); if (index(crates, " " crate " ")) print }' "$1/crates.txt"
}

# The checksum of all that the program and its proof are made of, in this folder: the code, the definitions and the
# proofs of its crates, with their names, their lines in crates.txt, and HANDLES.
sum_of_sources() (
    cd "$1" || exit
    crates=$(crates_of_program .)
    set -- HANDLES
    for crate in $crates; do
        for part in src specs proofs; do
            [ -d "crates/$crate/$part" ] && set -- "$@" "crates/$crate/$part"
        done
    done
    { lines_of_crates . "$crates"; find "$@" -type f -print0 | LC_ALL=C sort -z | xargs -0 sha256sum; } |
        sha256sum | cut -c 1-32
)

# The cache folder of the user's for programs, or nothing if the environment names none.
cache_folder() {
    case ${XDG_CACHE_HOME:-${HOME:+$HOME/.cache}} in
        /*) echo "${XDG_CACHE_HOME:-$HOME/.cache}/pmu" ;;
    esac
}

# The path of the program of this kind and sum, if one is kept.
kept_program() {
    cache=$(cache_folder)
    for kept in "$top/out/$1.$2" ${cache:+"$cache/$1.$2"}; do
        [ ! -f "$kept" ] || [ ! -x "$kept" ] || { echo "$kept"; return; }
    done
    return 1
}

# Sets `out` to the first folder that can take a program.
choose_folder() {
    cache=$(cache_folder)
    for out in "$top/out" ${cache:+"$cache"}; do
        mkdir -p "$out" 2>/dev/null && [ -w "$out" ] && return
    done
    say "no program is kept, and none can be: $top/out can't be written${cache:+, nor can $cache}"
    exit 125
}

# Waits for its turn to make a program of this kind; the lock ends with the process, however that ends.
take_turn() {
    choose_folder
    exec 9>"$out/$1.lock"
    flock -n 9 && return
    say "another call $2; waiting for it"
    flock 9 || exit 125
}

# Makes a room for the work, a folder among the temporary files, and removes that of a call that was killed.
make_room() {
    old=$(cat "$out/$1.room" 2>/dev/null)
    case $old in */pmu.??????) rm -rf "$old" ;; esac
    room=$(mktemp -d "${TMPDIR:-/tmp}/pmu.XXXXXX") && echo "$room" >"$out/$1.room" || fail_to keep
}

# Removes the room, and gives the next call its turn.
end_room() {
    trap - HUP INT TERM
    rm -rf "$room" "$out/$1.room"
    exec 9>&-
}

# Keeps a program that was made, under the kind and the sum of its sources, once it runs here. Those of other
# sources go, but for the three newest of a cache, which several checkouts may share.
keep_program() {
    kept=$out/$2.$3
    cp "$1" "$kept.new" && chmod 755 "$kept.new" && sync "$kept.new" &&
        [ "$("$kept.new")" = 'fault usage' ] && mv -f "$kept.new" "$kept" || { rm -f "$kept.new"; return 1; }
    others=3
    [ "$out" != "$top/out" ] || others=0
    find "$out" -maxdepth 1 -type f -name "$2.*" ! -name "$2.$3" ! -name '*.lock' ! -name '*.room' -printf '%T@ %p\n' |
        sort -rn | tail -n "+$((others + 1))" | cut -d ' ' -f 2- | while IFS= read -r old; do rm -f "$old"; done
}

# Ends what was begun in the room of a call that is interrupted.
stop() {
    trap '' HUP INT TERM
    end_line
    kill $children 2>/dev/null
    wait
    rm -rf "$room"
    [ -z "$interrupted" ] || say "$interrupted"
    exit "$1"
}

# Has a signal end what was begun, with this said.
catch_signals() {
    interrupted=$1
    trap 'stop 129' HUP
    trap 'stop 130' INT
    trap 'stop 143' TERM
}

need_toolchain() {
    command -v rt >/dev/null && return
    say "no program is kept, and the toolchain's rt, which makes it, isn't in the path: see README.md"
    exit 125
}

fail_to() {
    case $1 in
        compile) say "the program isn't compiled" ;;
        prove) say "the program isn't proved; what was proved is kept, and the next --prove goes on from there" ;;
        keep) say "the program can't be kept in $out, or doesn't run there ($(df -Pk "$out" | awk 'NR == 2 { print $4 }') KB are free)" ;;
    esac
    rm -rf "$room"
    exit 125
}

# Shows how far the work is: a line in place on a terminal, with the seconds so far; else a line wherever it changes.
show() {
    if [ -t 2 ]; then
        printf '\r\033[Kpmu: %.*s' "$(($(tput cols 2>/dev/null || echo 80) - 6))" "$1${2:+ ($2 s)}" >&2
    elif [ "$1" != "$shown" ]; then
        say "$1"
    fi
    shown=$1
}

end_line() {
    if [ -n "$shown" ] && [ -t 2 ]; then echo >&2; fi
    shown=''
}
