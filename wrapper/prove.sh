# How the program is proved and built; `pmu` reads this file after kept.sh. The toolchain's gate command does so in a
# copy that has the program's crates alone, side by side; of a crate that a gate on this machine has proved it takes that
# proof, and keeps each that it proves. So a proof that was broken off goes on from there.

# Copies what a proof of the program reads to a folder: the crates with no must-fail edits, which prove nothing.
copy_sources() {
    mkdir -p "$1/crates" "$1/.git" && cp "$top/HANDLES" "$1/" &&
        lines_of_crates "$top" "$crates" >"$1/crates.txt" || return
    for crate in $crates; do
        mkdir "$1/crates/$crate" || return
        for part in src specs proofs data args stdin stdout status; do
            [ ! -e "$top/crates/$crate/$part" ] || cp -R "$top/crates/$crate/$part" "$1/crates/$crate/" || return
        done
    done
}

# A line for each crate: its name, and the bytes of its code, definitions and proofs, by which its time is reckoned.
sizes_of_crates() {
    for crate in $crates; do
        echo "$crate $(find "$room/tree/crates/$crate" -type f -exec cat {} + | wc -c)"
    done
}

# How far the proof is by its log, after so many seconds: how many crates are proved, how long it takes for the others,
# reckoned by what this machine has proved since the first minute began, and which they are. A crate whose proof was
# kept took no time, and isn't reckoned with.
progress() {
    awk -v seconds="$1" '
        FNR == NR { name[++all] = $1; size[$1] = $2; next }
        /^rt: [^ ]+ (proved$|is kept: )/ && ($2 in size) && !($2 in done) {
            done[$2] = 1
            count++
            if ($3 == "proved") proved += size[$2]
        }
        END {
            for (k = 1; k <= all; k++) if (!(name[k] in done)) { left = left " " name[k]; rest += size[name[k]] }
            if (rest && proved && seconds >= 60) time = sprintf(", about %d minutes left", seconds * rest / proved / 60 + 1)
            printf "%d of %d crates proved%s%s", count, all, time, left == "" ? "" : ", left:" left
        }' "$room/sizes" "$room/log"
}

# What is shown of that: on a terminal at each second; else when another crate is proved, and the first time at which
# the rest can be reckoned.
show_progress() {
    line=$(progress "$1")
    if [ -t 2 ]; then
        show "$line" "$1"
        return
    fi
    case $line in *' minutes left'*) mark=reckoned ;; *) mark='' ;; esac
    mark=${line%% crates*}$mark
    [ "$mark" = "$marked" ] || say "$line"
    marked=$mark
}

# Waits for the proof, and shows how far it is.
follow_proof() {
    marked=''
    begun=$(date +%s)
    while kill -0 "$children" 2>/dev/null; do
        show_progress "$(($(date +%s) - begun))"
        sleep 1
    done
    show_progress "$(($(date +%s) - begun))"
    end_line
}

# Proves the program and keeps it.
prove() {
    sum=$(sum_of_sources "$top")
    ! kept_program proved "$sum" >/dev/null || { say "the program is proved"; return 0; }
    take_turn proved "proves the program"
    ! kept_program proved "$sum" >/dev/null || { say "the program is proved"; return 0; }
    need_toolchain
    catch_signals "what was proved is kept: the next ./pmu --prove goes on from there"
    make_room proved
    crates=$(crates_of_program "$top")
    copy_sources "$room/tree" || fail_to keep
    sum=$(sum_of_sources "$room/tree")
    sizes_of_crates >"$room/sizes"
    : >"$room/log"
    say "the proof takes about two hours of a processor, less what was proved here before; it can be broken off, and then goes on from there"
    (cd "$room/tree" && exec rt ci) >"$room/log" 2>&1 </dev/null 9>&- &
    children=$!
    follow_proof
    wait "$children"
    status=$?
    [ "$status" -eq 0 ] && [ -x "$room/tree/crates/pm_cli/out/pm_cli" ] || { tail -n 30 "$room/log" >&2; fail_to prove; }
    keep_program "$room/tree/crates/pm_cli/out/pm_cli" proved "$sum" || fail_to keep
    end_room proved
    say "the program is proved, and answers from now on"
}
