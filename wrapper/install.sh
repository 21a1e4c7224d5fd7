# How the program and the library are installed and removed; `pmu` reads this file after kept.sh. An installed copy has
# the program and the views in PREFIX/lib/pmu, with the list of all that was put anywhere, and PREFIX/bin/pmu names its
# wrapper. With DESTDIR in the environment all goes below that folder, as packagers want it; what is written into files
# names PREFIX alone.

# Puts a file of the repository, or of a build, to its place below the prefix with this mode, and notes that.
put() {
    mkdir -p "$root/${3%/*}" && cp "$2" "$root/$3" && chmod "$1" "$root/$3" && echo "$3" >>"$list"
}

# Makes a link below the prefix, and notes it.
put_link() {
    mkdir -p "$root/${2%/*}" && ln -sf "$1" "$root/$2" && echo "$2" >>"$list"
}

# Puts the program, the wrapper and the views.
put_program() {
    put 755 "$top/pmu" lib/pmu/pmu && put 755 "$program" lib/pmu/program || return
    for file in "$top"/wrapper/*.sh "$top"/views/*.py "$top"/topologies/*.topology; do
        put 644 "$file" "lib/pmu/${file#"$top"/}" || return
    done
    (. "$top/wrapper/help.sh" && version) >"$room/version" && put 644 "$room/version" lib/pmu/version &&
        put_link ../lib/pmu/pmu bin/pmu
}

# The part of the version that names an interface: the first number, and while that is 0 the second one too.
interface() {
    case $number in 0.*) echo "${number%.*}" ;; *) echo "${number%%.*}" ;; esac
}

# Makes the shared object of the archives, if a C compiler can.
link_shared() {
    command -v "${CC:-cc}" >/dev/null &&
        "${CC:-cc}" -shared -Wl,-soname,"libpmu.so.$(interface)" -o "$room/libpmu.so" -Wl,--whole-archive "$library/libpmu.a" \
            "$library/libpmu_memory.a" -Wl,--no-whole-archive >"$room/log" 2>&1
}

# Puts the headers, the archives, the shared object and what pkg-config reads.
put_library() {
    put 644 "$top/include/pmu.h" include/pmu.h && put 644 "$top/include/pmu_eemi.h" include/pmu_eemi.h || return
    if [ ! -f "$library/libpmu.a" ] || [ ! -f "$library/libpmu_memory.a" ]; then
        say "the library isn't installed, only its headers: $library has no archives (examples/c/build makes them)"
        return
    fi
    put 644 "$library/libpmu.a" lib/libpmu.a && put 644 "$library/libpmu_memory.a" lib/libpmu_memory.a || return
    if link_shared; then
        put 755 "$room/libpmu.so" "lib/libpmu.so.$number" && put_link "libpmu.so.$number" "lib/libpmu.so.$(interface)" &&
            put_link "libpmu.so.$(interface)" lib/libpmu.so || return
    else
        say "no shared object is installed: no C compiler links the archives as one"
    fi
    cat >"$room/pmu.pc" <<END_OF_FILE
prefix=$prefix
libdir=\${prefix}/lib
includedir=\${prefix}/include

Name: pmu
Description: The power management core of the Zynq UltraScale+, proved
Version: $number
Cflags: -I\${includedir}
Libs: -L\${libdir} -lpmu -lpmu_memory
END_OF_FILE
    put 644 "$room/pmu.pc" lib/pkgconfig/pmu.pc
}

# Puts the binding for Python, which finds the shared object from there.
put_binding() {
    for file in pmu.py pmu_eemi.py pmu_library.py pmu_told.py; do
        put 644 "$top/bindings/python/$file" "lib/pmu/python/$file" || return
    done
}

# Puts the documents and the examples, which these name.
put_documents() {
    for file in "$top"/README.md "$top"/docs/*.md "$top"/docs/pictures/* "$top"/examples/*.* "$top"/topologies/*.*; do
        put 644 "$file" "share/doc/pmu/${file#"$top"/}" || return
    done
}

# A manual page: its name and section, what it is, and a text as it stands.
page() {
    printf '.TH %s %s "" "pmu %s"\n.SH NAME\n%s \\- %s\n.SH DESCRIPTION\n.nf\n' "$1" "$2" "$number" "$1" "$3"
    sed "s/\\\\/\\\\e/g; s/-/\\\\-/g; s/^[.']/\\\\\&&/"
    echo .fi
}

put_pages() {
    (. "$top/wrapper/help.sh" && help && echo && options_of_all) | page pmu 1 'the power management core of the Zynq UltraScale+' >"$room/pmu.1" &&
        page pmu 3 'the core as a library for C' <"$top/include/pmu.h" >"$room/pmu.3" &&
        put 644 "$room/pmu.1" share/man/man1/pmu.1 && put 644 "$room/pmu.3" share/man/man3/pmu.3
}

# Sets the prefix, the folder that stands for it, and the list of what was put there.
take_prefix() {
    case $1 in
        /*) ;;
        *) say "the folder to install to is named by its whole path: $1 isn't one"; exit 125 ;;
    esac
    prefix=${1%/} root=${DESTDIR:-}${1%/}
}

# Installs all below the prefix, in place of what an earlier call put there.
install_all() {
    take_prefix "$1"
    [ ! -x "$top/program" ] || { say "this is an installed copy: install from a checkout"; exit 125; }
    proved_alone=yes PMU_PROGRAM=''
    choose_program
    number=$(. "$top/wrapper/help.sh" && version_of_headers) library=${PMU_LIBRARY:-$top/out/c}
    room=$(mktemp -d "${TMPDIR:-/tmp}/pmu.XXXXXX") && list=$room/list && : >"$list" || exit 125
    trap 'rm -rf "$room"' EXIT
    remove_listed
    put_program && put_library && put_binding && put_documents && put_pages && echo lib/pmu/installed >>"$list" && cp "$list" "$root/lib/pmu/installed" ||
        { say "not all could be put below $root: what was put is removed"; cp "$list" "$root/lib/pmu/installed"; remove_listed; exit 125; }
    say "$(wc -l <"$list") files are installed below $root; ./pmu --uninstall $prefix removes them"
}

# Removes what an earlier call put there, and the folders that are empty then.
remove_listed() {
    [ -f "$root/lib/pmu/installed" ] || return 0
    while IFS= read -r file; do
        case $file in /* | *..*) ;; *) rm -f "$root/$file" && (cd "$root" && rmdir -p "${file%/*}" 2>/dev/null) ;; esac
    done <<END_OF_LIST
$(cat "$root/lib/pmu/installed")
END_OF_LIST
}

uninstall_all() {
    take_prefix "$1"
    [ -f "$root/lib/pmu/installed" ] || { say "nothing is installed below $root"; exit 125; }
    remove_listed
    say "what was installed below $root is removed"
}
