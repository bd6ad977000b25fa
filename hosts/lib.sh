# What the scripts share: where things are, how the library is built, how C is compiled, how tests are counted.
# shellcheck shell=bash

set -euo pipefail

top=$(cd "$(dirname "${BASH_SOURCE[0]}")/.." && pwd)
# What the tests build. BLOCKHEAP_TARGET names another folder for it than target/, so that two may run beside each other.
made=${BLOCKHEAP_TARGET:-$top/target}
# shellcheck disable=SC2034
out=$made/hosts tools=$made/tools portable=$made/portable
CC=${CC:-cc}

die() {
    echo "$*" >&2
    exit 2
}

on_machine() { # TOOL
    command -v "$1" >/dev/null
}

need() { # TOOL WHAT_FOR
    on_machine "$1" || die "'$1' is not on this machine; it is needed to $2"
}

# For a script without arguments: --help shows the text, and any other word is refused.
help_only() { # TEXT ARGUMENTS...
    [ $# -gt 1 ] || return 0
    case $2 in
        -h | --help) echo "$1"; exit ;;
        *) die "$(realpath --relative-to "$top" "$0") takes no arguments; --help says what it does" ;;
    esac
}

# What a script that calls find_library says of it in its help.
# shellcheck disable=SC2034
library_help="The library is proved and built first, unless it is up to date. That takes some minutes, and needs rt.
Where BLOCKHEAP_LIB names another archive, that is taken as it is."

# The project's own archive, and beside it the mark that says what it was made of.
own_library=$top/target/staticlib/libblockheap.a
library_mark=$top/target/staticlib/libblockheap.mark

# The crate whose functions C calls, and the archive that is made in its folder.
c_crate=$top/crates/blockheap_c
c_archive=$c_crate/out/libblockheap_c.a

# A checksum of all that the archive is made of: the toolchain, and the crates with their proofs. It takes in every crate, also
# the few that the library does not need, so that none can be forgotten. What rt leaves in a crate's out/ is none of it.
library_source() {
    (cd "$top" && rt version && find -L crates.txt crates -type f ! -path '*/must-fail/*' ! -path 'crates/*/out/*' -exec sha256sum {} + |
        LC_ALL=C sort) | sha256sum
}

# Whether the project's own archive is the one that was proved and built of these crates, by this toolchain.
library_is_up_to_date() {
    local source
    [ -f "$own_library" ] && [ -f "$library_mark" ] && source=$(library_source) &&
        [ "$(<"$library_mark")" = "$source $(sha256sum <"$own_library")" ]
}

# The crates that the library is made of: all that blockheap_c leads to in crates.txt, and itself at the end, as rt proves them.
library_crates() {
    awk -F: 'function reach(name, names, many, at) {
            if (name in reached || !(name in needs)) return
            reached[name]
            many = split(needs[name], names, " ")
            for (at = 1; at <= many; at++) reach(names[at])
            print name
        }
        /^[^#]/ { sub(/ .*/, "", $1); needs[$1] = $2 }
        END { reach("blockheap_c") }' "$top/crates.txt"
}

# Of what rt says, shows each crate that it has proved, with its number among all. Of those that have not changed rt says nothing.
show_progress() { # CRATES...
    local line name='' number
    while read -r line; do
        if [[ $line =~ ^rt:\ chose\ .*\ for\ ([^ ]+)$ ]]; then
            name=${BASH_REMATCH[1]}
            [ "$name" != "${!#}" ] || echo "$# of $#: $name, the library itself"
        elif [[ $line == logic=proved\ * && $name != "${!#}" ]]; then
            number=$(printf '%s\n' "$@" | grep -nxF "$name" | cut -d : -f 1)
            echo "${number:-?} of $#: $name is proved"
        fi
    done
}

# Takes the archive that stands in the crate's folder as the project's own, if the crates are what it was made of.
take_library() { # WHAT_IT_WAS_MADE_OF
    [ "$1" = "$(library_source)" ] || die "the crates were changed while the library was built"
    mkdir -p "$(dirname "$own_library")" && cp "$c_archive" "$own_library" &&
        echo "$1 $(sha256sum <"$own_library")" >"$library_mark"
}

# Proves and builds the project's own library. What rt says is shown if it fails.
build_library() {
    local log=$out/library.log source crates
    mkdir -p "$out"
    mapfile -t crates < <(library_crates)
    echo "proving and building the library: ${#crates[@]} crates, of which those that have not changed take no time" >&2
    rm -f "$library_mark" "$c_archive"
    source=$(library_source) || die "'rt version' does not say which toolchain this is"
    if ! (cd "$c_crate" && rt lib) 2>&1 | tee "$log" | show_progress "${crates[@]}" >&2; then
        cat "$log" >&2
        die "the library could not be built"
    fi
    take_library "$source"
}

# Whether no crate has a library of an earlier run. rt ci puts such a library back where it was: only without one do those that
# stand in the crates' folders behind it come from that run.
nothing_is_kept() {
    [ ! -e "$top/.git/rt-aside" ] && ! compgen -G "$top/crates/*/out/rlib" >/dev/null
}

# Proves the functions for C over the libraries that rt ci has proved and left in the crates' folders, and builds the project's own
# library. rt lib would prove those libraries again, from nothing: it takes none that the gate made. Neither that folder nor these
# words for the compiler are said to stay as they are: where they do not serve, this fails, and rt lib is left.
build_library_over_proved() { # WHAT_WAS_PROVED
    local log=$out/library.log kit name needs flags
    kit=$(dirname "$(dirname "$(realpath "$(command -v rt)")")")
    mkdir -p "$out" "$c_crate/out"
    rm -f "$library_mark" "$c_archive"
    flags=(--extern "std=$kit/rlibs/std.rlib" -L "dependency=$kit/rlibs")
    read -ra needs < <(sed -nE 's/^blockheap_c( [^:]*)?://p' "$top/crates.txt")
    for name in "${needs[@]}"; do
        flags+=(--extern "$name=$top/crates/$name/out/rlib/$name.rlib")
    done
    for name in $(library_crates); do flags+=(-L "dependency=$top/crates/$name/out/rlib"); done
    (cd "$c_crate" && "$kit/bin/rattle" build --crate-name blockheap_c src/lib.rt "${flags[@]}" --links blockheap_c= \
        --antt-project "$kit/rattle/logic/antt-project.json" --logic-built "$kit/logic_built" --crate-type staticlib \
        --toolchain "$kit/toolchain" --backend llvm -o "$c_archive") >"$log" 2>&1 || return
    take_library "$1"
}

# Removes the libraries that rt ci left, which have no stamp: no other command of rt takes them, and beside them the next run of the
# gate could not tell which come from it.
forget_proved() {
    local folder
    for folder in "$top"/crates/*/out/rlib; do [ -e "$folder/stamp" ] || rm -rf "$folder"; done
}

# Whether the last line of rt ci says that it tried must-fail edits, and that none was bad. Such an edit cannot be applied or does not compile: it
# fails nothing there, and shows nothing.
no_edit_is_bad() { # WHAT_RT_CI_SAID
    local line
    line=$(grep '^rt: ok; ' "$1") && [[ $line =~ \;\ must-fail\ edits:\ [1-9][0-9]*\ refused([^\;]*)\; ]] &&
        [[ ! ${BASH_REMATCH[1]} =~ \ [1-9][0-9]*\ bad ]] && return
    echo "rt ci says of the must-fail edits: ${line:-nothing}"
    return 1
}

# Sets BLOCKHEAP_LIB to the full path of the library: another archive that it names, or the project's own, which is built if it
# is not up to date.
find_library() {
    if [ -n "${BLOCKHEAP_LIB:-}" ] && [ ! "$BLOCKHEAP_LIB" -ef "$own_library" ]; then
        [ -f "$BLOCKHEAP_LIB" ] || die "BLOCKHEAP_LIB names $BLOCKHEAP_LIB, and there is no such file"
        note "BLOCKHEAP_LIB is set: this is another archive than the project's, $BLOCKHEAP_LIB"
    elif ! on_machine rt; then
        [ -f "$own_library" ] || die "there is no rt on this machine, which proves and builds the library. Without it:" \
            "hosts/portable/build, and set BLOCKHEAP_LIB to the archive that it names"
        note "there is no rt on this machine: the library is the one built last, and may be older than the crates"
        BLOCKHEAP_LIB=$own_library
    else
        library_is_up_to_date || build_library
        BLOCKHEAP_LIB=$own_library
    fi
    BLOCKHEAP_LIB=$(realpath "$BLOCKHEAP_LIB")
    export BLOCKHEAP_LIB
}

compile() { # WORDS FOR THE COMPILER...
    "$CC" -std=c11 -Wall -Wextra -Werror -O2 -I "$top/include" "$@"
}

# ---- Running beside each other

# Runs a function in a group of processes of its own, with one folder, $TMPDIR, for all temporary files. When it ends or is
# interrupted, what it left running is ended too, and the folder is removed. Inside of such a group there is no other.
contained() { # FUNCTION WORDS...
    if [ -n "${BLOCKHEAP_CONTAINED:-}" ]; then
        "$@"
        return
    fi
    group='' TMPDIR=$(mktemp -d)
    export TMPDIR BLOCKHEAP_CONTAINED=yes
    chmod 711 "$TMPDIR" # as root rt runs programs as nobody, who must reach them
    trap end_group EXIT
    trap 'exit 130' INT
    trap 'exit 143' TERM HUP
    set -m
    "$@" </dev/null &
    group=$!
    set +m
    wait "$group"
}

# Whoever is asked to end, and is still there after some seconds, is ended.
end_group() {
    local try
    for try in TERM {1..50} KILL; do
        [[ $try == [0-9]* ]] || kill "-$try" -- "-$group" 2>/dev/null || break
        kill -0 -- "-$group" 2>/dev/null || break
        sleep 0.1
    done
    rm -rf "$TMPDIR"
}

# ---- Counting tests

passed=0 failed=0 notes=()

# Says something at once, and again before the count.
note() { # WORDS...
    echo "$*" >&2
    notes+=("$*")
}

pass() { # WORDS...
    echo "ok      $*"
    passed=$((passed + 1))
}

fail() { # WORDS...
    echo "FAILED  $*"
    failed=$((failed + 1))
}

# Runs a command as one test.
check() { # TITLE COMMAND...
    if "${@:2}"; then pass "$1"; else fail "$1"; fi
}

# Runs a command whose last line is 'N passed, M failed', and adds that up. What it left out is noted here too.
run_counted() { # NAME COMMAND...
    local name=$1 log status=0 line
    shift
    log=$(mktemp)
    "$@" 2>&1 | tee "$log" || status=$?
    while read -r line; do
        [[ " ${notes[*]} " == *" $line "* ]] || notes+=("$line")
    done < <(grep '^left out: ' "$log")
    if [[ $(tail -n 1 "$log") =~ ^([0-9]+)\ passed,\ ([0-9]+)\ failed$ ]]; then
        passed=$((passed + BASH_REMATCH[1]))
        failed=$((failed + BASH_REMATCH[2]))
        [ "$status" -eq 0 ] || [ "${BASH_REMATCH[2]}" -ne 0 ] || fail "$name ended with status $status"
    else
        fail "$name ended with status $status and without a count"
    fi
    rm "$log"
}

# Starts a command that counts beside what follows, but no more than two at a time. Its output is kept until show_beside.
declare -A beside=()
start_beside() { # NAME COMMAND...
    local log
    log=$(mktemp)
    [ "$(jobs -pr | wc -l)" -lt 2 ] || wait -n || true
    "${@:2}" </dev/null >"$log" 2>&1 &
    beside[$1]="$! $log"
}

# Waits for such a command, shows what it wrote, and adds its count up.
show_beside() { # NAME
    local job log status=0
    read -r job log <<<"${beside[$1]}"
    wait "$job" || status=$?
    run_counted "$1" ended "$status" cat "$log"
    rm "$log"
}

# Runs a command, and ends with the status that another had.
ended() { # STATUS COMMAND...
    "${@:2}"
    return "$1"
}

# Holds a number of tests to the one that a file expects: a line has a name and a number.
expect() { # NAME NUMBER FILE
    local expected
    expected=$(awk -v name="$1" '$1 == name { print $2 }' "$top/$3")
    if [ "$2" = "$expected" ]; then
        return
    elif [ "$2" -gt "${expected:-0}" ]; then
        fail "$1 counts $2 where $3 expects ${expected:-none}: raise the number there"
    else
        fail "$1 counts $2 where $3 expects $expected: some were lost"
    fi
}

# Runs a leg of tests, as many as a file expects of it. One that cannot run here sets left_out to the reason.
run_leg() { # NAME FILE COMMAND...
    local before=$((passed + failed)) left_out=''
    printf '\n== %s\n' "$1"
    "${@:3}" || fail "$1 ended with status $?"
    if [ -n "$left_out" ]; then
        note "left out: $1 ($left_out); it is optional"
    else
        expect "$1" $((passed + failed - before)) "$2"
    fi
}

# The names of the legs that a file expects, in order.
legs_of() { # FILE
    awk '!/^#/ { print $1 }' "$top/$1"
}

count() {
    echo "$passed passed, $failed failed"
}

# The last lines of a script that tests, and its status.
finish() {
    printf '%s\n' '' "${notes[@]}"
    count
    [ "$failed" -eq 0 ] && [ "$passed" -gt 0 ]
}
