# What `pmu` says of itself: its help, whole or of one form, and its version. `pmu` reads this file after kept.sh.

help() {
    cat <<'END_OF_HELP'
usage: ./pmu replay OBJ SCRIPT   runs the script of the file SCRIPT over the configuration object of the file OBJ
       ./pmu reach OBJ NODE      writes what the master NODE of the object can reach
       ./pmu isolate OBJ SCRIPT NODE    writes that, and what differs if the script runs without its messages
       ./pmu print OBJ           writes the object as a text
       ./pmu build TEXT          writes the object that the text of the file TEXT means
       ./pmu make N              runs a script of N lines that is made, and writes six counts of that
       ./pmu table               writes the topology of the chip as a text
       replay, reach and isolate take the text of another topology, a file TOPO, as one word more at their end
       ./pmu --prove             proves and builds the program, and shows how long that takes here
       ./pmu --proved WORDS..    answers by the proved program alone
       ./pmu --program           writes the path of the program that answers, which is made if there is none
       ./pmu --install PREFIX    puts the proved program, the library, its headers and manual pages below a folder
       ./pmu --uninstall PREFIX  removes what was put there
       ./pmu --help, ./pmu -h    writes this help; behind the first word of a form, that of the form with its options
       ./pmu --version, ./pmu -V    writes which version, toolchain and commit this is, and whether it is proved

Views of what it reads and writes, in other ways:
       ./pmu --names FORM..      the output of a form above, with what each line means; NODE and files may have names
       ./pmu --numbers FILE      a script or a text that is written with names, in numbers
       ./pmu --vcd replay OBJ SCRIPT    a value change dump, for a waveform viewer
       ./pmu --svg replay OBJ SCRIPT    the waveform as a picture
       ./pmu --dot reach OBJ NODE       a graph, for Graphviz
       ./pmu from-c FILE.c              the object of the C file of the vendor's tools; with -o OBJ, as a file
       ./pmu lint OBJ [SCRIPT]          what is passed over in them
       ./pmu policy OBJ FILE            judges what each master can reach by the rules of a file; exit 101 if one is broken
       ./pmu diff OBJ SCRIPT NODE       a script with and without the messages of a master
       ./pmu compare OBJ OBJ            what two objects permit otherwise; exit 102 if anything
       ./pmu import LOG                 the calls of a board's log as a script, with the answers that the log has
       ./pmu test OBJ SCRIPT..          judges runs by what is expected in comments or SCRIPT.expect; exit 104 if one differs
       ./pmu dts OBJ TREE [TOPO]        what Linux asks for by a device tree, and what is refused; exit 102 if anything is
       ./pmu report OBJ [SCRIPT] -o FILE.html    a page of who can reach whom, the script's wave, and each line in names
       ./pmu names                      the names of nodes, reset lines, calls, clocks and words, with their numbers
       the views of an object take a TOPO as one word more too, and tell which one it was over the board's reset lines
       ./pmu FORM --help has the options of a view; most have --json (docs/JSON.md)
docs/OBJECTS.md and docs/VIEWS.md explain them, and name the documents of the others. Nothing is proved of them.

A file - is standard input. With -o FILE (--output FILE), anywhere among the words, what is written goes to FILE, which
stays as it was if there is a fault. Behind -- no word is an option.
Until ./pmu --prove has proved the program, the answers are those of the program before its proof, and each call says so
on standard error. The first call compiles that: two processors take a minute or two. It is nearly as fast as the proved
one: a script of 100,000 lines takes less than a second. If the toolchain can't optimise it, it takes 20 seconds for these.
The proof takes two hours of a processor: two processors take about an hour.

exit   0 all was written                  7 the script is too long
       1 no such form of words            8 a bad text, topology, master or number
       2 a bad object                     101 policy: a rule is broken
       3 a bad line of the script         102 lint --strict, dts, compare: something was found
       4 an input can't be read           103 policy: a record gives something that wasn't judged; test: nothing is expected
       5 the output can't be written      125 there is no program, or a view can't do what its words ask for
       6 want of memory                   104 test: a run differs from what is expected
       A line on standard error says what is wrong and in which file and line. docs/FORMATS.md has more.

Two examples:
       ./pmu replay examples/two-masters.obj examples/status.script
       ./pmu reach examples/laboratory.obj 7
END_OF_HELP
}

# Of the forms the options, and what else is to be known: lines FORM OPTION, with what it does behind two spaces or more.
options() {
    cat <<'END_OF_OPTIONS'
reach -  what a published reset line resets besides its one unit in the topology isn't in it: --names reach has that
isolate -  what a published reset line resets besides its one unit in the topology isn't in it: --names isolate has that
--names --json  writes the lines and their meanings as JSON: --names --json FORM..
--names -  a script may have lines 'break N for K' and 'fail N once' too: outages of the device that end by themselves
--numbers -  of a line 'break N for K' it writes the two lines of the program; 'fail N once' is refused
--vcd --ticks  a second is a unit of the script's own time, and not a line
--vcd --gtkw FILE  writes a saved view for GTKWave too, and files of the names of states beside it
--vcd --json  writes the lines and events as JSON
--svg --json  writes the rows of the picture as JSON
--dot --all  each arrow has all its reasons, and not the first one alone
--dot --json  writes the masters, frames and arrows as JSON
lint --strict  ends with 102 if there is a warning
lint --ignore CHECK  leaves a check out, or several with commas between them
lint --json  writes the findings as JSON
lint --sarif  writes the findings as SARIF 2.1.0
policy --repair  tells the fewest records to change so that all rules hold
policy --json  writes the rules, breaches and records as JSON; with --repair the changes
policy --sarif  writes the breaches as SARIF 2.1.0; with --repair the changes as fixes
diff --json  writes what differs as JSON
compare --json  writes what differs as JSON
test --all  tells all differences, and not the first of each script alone
test --tap  writes in the Test Anything Protocol, a point for each script
test --junit FILE  writes a file of JUnit too, with a case for each expectation
test --json  writes each script with its expectations as JSON
test --topology TOPO  runs over another topology
dts --json  writes the devices, what they ask for and the answers as JSON
dts --master NODE  judges the tree of another master than APU
report --policy FILE  adds what the rules of a file find
report --topology TOPO  judges over another topology
names --json  writes the names as JSON
END_OF_OPTIONS
}

# The options of all forms, as the manual page has them.
options_of_all() {
    echo 'The options of the forms, and what else is to be known of these:'
    options | awk '{
        split(substr($0, length($1) + 2), part, "  ")
        printf "       %-24s %s\n", $1 (part[1] == "-" ? "" : " " part[1]), part[2]
    }'
}

# The lines of the help about the form that begins with this word, with its options and exits; nothing if there is no such form.
help_of() {
    told=$(help | awk -v form="$1" '
        /^Two examples:/ { exit }
        /^(usage:|      ) \.\/pmu / {
            if ($1 == "usage:") sub(/^usage:/, "      ")
            if (index($0 " ", " ./pmu " form " ")) print
        }')
    [ -n "$told" ] || return 0
    printf '%s\n' "$told"
    options | awk -v form="$1" '
        $1 == form {
            split(substr($0, length(form) + 2), part, "  ")
            if (part[1] == "-") print "         " part[2]
            else printf "         %-16s %s\n", part[1], part[2]
        }'
    echo
    help | awk '/^exit / { exits = 1 } /^$/ { exits = 0 } exits'
}

# The version of the headers, as MAJOR.MINOR.PATCH.
version_of_headers() {
    awk '$2 ~ /^PMU_VERSION_(MAJOR|MINOR|PATCH)$/ { printf "%s%s", dot, $3; dot = "." }' "$top/include/pmu.h"
}

# The words of `--version`; an installed copy has kept those of the checkout that it is of.
version() {
    if [ -f "$top/version" ]; then cat "$top/version"; return; fi
    echo "pmu $(version_of_headers)"
    if command -v rt >/dev/null; then rt version || exit 125; else echo "no toolchain: rt isn't in the path"; fi
    if [ -e "$top/.git" ] && commit=$(git -C "$top" rev-parse HEAD 2>/dev/null); then
        changes=''
        git -C "$top" diff --quiet HEAD 2>/dev/null || changes=', with changes since'
        echo "commit $commit$changes"
    fi
    if kept_program proved "$(sum_of_sources "$top")" >/dev/null; then echo 'program proved'; else echo 'program not proved'; fi
}
