# How the program is compiled before its proof; `pmu` reads this file after kept.sh. `rt try` compiles and runs it. It
# does so in a copy of the toolchain that has all of its parts by links, but for clang, in whose place wrapper/clang
# asks for an optimised program: hundreds of times faster. That program is kept once it answers some of the cases as
# they say. Where the toolchain has no such parts, or what they make answers otherwise, the program is kept that `rt try`
# makes by the toolchain as it is.

# The cases that an optimised program answers before it is kept: each form, a fault, power calls, clocks, wake-ups.
compared='example_wake example_force example_suspend example_tasks example_boxes calls_start_and_stop_a_processor
    clocks_are_divided isolate_over_two_objects reach_three_masters print_three_masters build_laboratory table_of_the_chip
    topology_of_a_small_chip make_thirteen_lines bad_line_long'

# Links all of a folder into a new one, but for the names that follow.
link_all() {
    from=$1 to=$2
    shift 2
    mkdir "$to" || return
    for part in "$from"/*; do
        case " $* " in *" ${part##*/} "*) ;; *) ln -s "$part" "$to/" || return ;; esac
    done
}

# Makes the copy of the toolchain with the other clang, if the toolchain has its parts where they are known to be. `rt`
# itself is copied, since it finds the toolchain by the place of its file; the sanitizer's library is empty there, and so
# is the prover, which `rt try` asks beside the compiler for a hint alone, at the cost of a second processor.
copy_toolchain() {
    kit=$(rt doc 2>/dev/null) && kit=$(cd "$(dirname -- "$kit")" 2>/dev/null && pwd) || return
    for part in bin/rt bin/rtlib.py c/asan.a toolchain/bin/clang; do
        [ -f "$kit/$part" ] || return
    done
    copy=$room/kit
    link_all "$kit" "$copy" bin c toolchain && ln -s "$kit" "$copy/of-the-kit" &&
        link_all "$kit/bin" "$copy/bin" rt rtlib.py rattle && cp "$kit/bin/rt" "$kit/bin/rtlib.py" "$copy/bin/" &&
        echo '#!/bin/sh' >"$copy/bin/rattle" && chmod 755 "$copy/bin/rattle" &&
        link_all "$kit/c" "$copy/c" asan.a && echo '!<arch>' >"$copy/c/asan.a" &&
        link_all "$kit/toolchain" "$copy/toolchain" bin && link_all "$kit/toolchain/bin" "$copy/toolchain/bin" clang &&
        cp "$top/wrapper/clang" "$copy/toolchain/bin/clang"
}

# Takes the program out of the folder in which `rt try` has compiled it. It has just been started, and waits for its
# object, which is a pipe: so it is whole, and stays there until the pipe is closed.
take_compiled() {
    exec 8>"$room/object" || exit
    made=$(find "$room/work" -type f -perm -u+x | head -n 1)
    [ -n "$made" ] && cp "$made" "$room/program"
}

# How far the compiler is: it has written the module for clang, or it hasn't yet.
look_at_stage() {
    [ -z "$(find "$room/work" -name module.bc -size +200k 2>/dev/null)" ] || stage='making machine code'
}

# Compiles the program by this `rt`, as $room/program, and shows how far it is.
compile_by() {
    rm -rf "$room/work" "$room/object" "$room/program"
    mkdir "$room/work" && mkfifo "$room/object" || fail_to keep
    stage='reading the sources'
    begun=$(date +%s)
    (cd "$top/crates/pm_cli" && TMPDIR=$room/work exec "$1" try -- print "$room/object") >"$room/log" 2>&1 </dev/null 9>&- &
    compiler=$!
    # (it holds neither the turn nor the output of the caller, if this call is killed)
    (exec 9>&- >/dev/null 2>&1 && take_compiled) &
    taker=$!
    children="$compiler $taker"
    while kill -0 "$compiler" 2>/dev/null; do
        look_at_stage
        show "compiling the program, before its proof: $stage" "$(($(date +%s) - begun))"
        sleep 1
    done
    wait "$compiler"
    kill "$taker" 2>/dev/null
    wait "$taker" 2>/dev/null
    taken=$?
    end_line
    [ "$taken" -eq 0 ] && [ -x "$room/program" ]
}

# Whether the program in the room answers a case as it says.
answers_case() (
    cd "$top/cases/$1" 2>/dev/null || exit 1
    set --
    while IFS= read -r word || [ -n "$word" ]; do set -- "$@" "$word"; done <words
    timeout 60 "$room/program" "$@" >"$room/wrote" 2>/dev/null </dev/null
    [ "$?" = "$(cat status)" ] && cmp -s "$room/wrote" expect
)

# Whether the program in the room answers each of the cases as they say.
answers_cases() {
    show "comparing the program with cases"
    end_line
    for case in $compared; do
        answers_case "$case" || { say "the optimised program doesn't answer cases/$case as it has to: it is thrown away"; return 1; }
    done
}

# Makes the optimised program, if the toolchain can.
compile_optimised() {
    copy_toolchain || return
    compile_by "$copy/bin/rt" && [ -e "$copy/toolchain/bin/optimised" ] && answers_cases
}

# Compiles the sources as they are, without a proof, and keeps the program.
compile() {
    take_turn unproved "compiles the program"
    ! program=$(kept_program unproved "$sum") && ! program=$(kept_program unproved-slow "$sum") || return 0
    need_toolchain
    catch_signals ''
    make_room unproved
    kind=unproved
    if ! compile_optimised; then
        kind=unproved-slow
        compile_by rt || { sed '/^run=/d; /^Terminated$/d' "$room/log" | tail -n 30 >&2; fail_to compile; }
    fi
    [ "$(sum_of_sources "$top")" = "$sum" ] || { say "a source changed meanwhile; call again"; fail_to compile; }
    keep_program "$room/program" "$kind" "$sum" || fail_to keep
    end_room unproved
    program=$out/$kind.$sum
}
