# shellcheck shell=sh
# Runs a program of this repository, proved: read by '.' from a script that has set
#   name   its own name, for messages
#   top    the repository's folder
#   crate  the program's crate
#   whole  how long it takes to prove all of it
# A program that is refused is removed; none that is not proved is run. It goes by checksums, so a call that finds nothing changed asks rt for
# nothing but its version. POSIX sh.

say() { printf '%s: %s\n' "$name" "$*" >&2; }

die() {
    say "$@"
    exit 2
}

program=$top/crates/$crate/out/$crate
log=$top/target/$name.log
made=$top/target/$name.made

# How many crates the program is made of.
count_crates() {
    awk -v program="$crate" '
        { sub(/#.*/, ""); colon = index($0, ":") }
        colon { below[substr($0, 1, colon - 1)] = substr($0, colon + 1) }
        END {
            last = split(program, names, " ")
            for (i = 1; i <= last; i++) {
                if (seen[names[i]]++ || !(names[i] in below)) continue
                count++
                n = split(below[names[i]], more, " ")
                for (k = 1; k <= n; k++) names[++last] = more[k]
            }
            print count + 0
        }' "$top/crates.txt"
}

# Hands on what rt says: whole to the log, and a line for each crate that it begins with. Its status is rt's.
report() {
    begun=0
    while IFS= read -r line; do
        printf '%s\n' "$line" >>"$log"
        case $line in
        'rt: chose '*' for '*)
            begun=$((begun + 1))
            say "proving crate $begun: ${line##* for }"
            ;;
        'rt ended '*) return "${line##* }" ;;
        esac
    done
    return 2
}

# A line for the kit and the sources: another line where one of them is another.
sources() {
    {
        rt version
        cd "$top" && find crates.txt crates -name out -prune -o -type f -exec cksum {} +
    } 2>/dev/null </dev/null | sort | cksum
}

# That line as it was before the program was proved, and the program that came of it.
is_made() { [ -x "$program" ] && [ -f "$made" ] && [ "$(cat "$made")" = "$(sources; cksum "$program")" ]; }

# Proves the program and the crates below it, builds it, and runs it on an empty input.
prove() {
    : >"$log" || die "cannot write '$log'"
    { (cd "$top/crates/$crate" && rt run) </dev/null 2>&1; echo "rt ended $?"; } | report
}

# Has the program proved and built, where it is not. One that is not proved is removed.
build() {
    command -v rt >/dev/null 2>&1 || die 'rt, of the Rattle kit, is not on PATH; put it there and call again'
    if ! mkdir -p "$top/target" 2>/dev/null || [ ! -w "$top/target" ]; then
        die "cannot write '$top/target', where proofs and program go; copy '$top' to where you can write, and call it there"
    fi
    # one call at a time proves here
    exec 9>>"$top/target/lock" || die "cannot write '$top/target/lock'"
    if command -v flock >/dev/null 2>&1 && ! flock -n 9; then
        say 'another call proves here; waiting for it'
        flock 9 || die "cannot lock '$top/target/lock'"
    fi
    if is_made; then
        exec 9>&-
        return
    fi
    say "proving what is new or changed of $(count_crates) crates; all of them take $whole"
    rm -f "$made"
    # before rt reads them: what changes while it proves is proved by the next call
    before=$(sources)
    prove
    status=$?
    if [ "$status" -eq 0 ] && [ -x "$program" ]; then
        { echo "$before" && cksum "$program"; } >"$made" || die "cannot write '$made'"
        exec 9>&-
        return
    fi
    # where rt itself failed nothing is known of the program, and it stays; it is not run
    [ "$status" -ne 1 ] || rm -f "$program"
    grep -e 'not proved' -e 'error' "$log" | head -n 5 >&2
    die "the program is not proved, so nothing was read; '$log' has all that rt said"
}

run() { "$program"; }

version() {
    commit='no git checkout'
    [ ! -e "$top/.git" ] || commit=$(git -C "$top" describe --always --dirty 2>/dev/null) || commit='commit unknown'
    kit=$(rt version 2>/dev/null) || kit='no Rattle kit on PATH'
    printf '%s of Pouchkettle (%s; %s)\n' "$name" "$commit" "$kit"
}

# Makes FILE the standard input.
take_file() { # FILE WHAT-IS-WANTED
    [ -e "$1" ] || die "there is no file '$1'"
    [ ! -d "$1" ] || die "'$1' is a folder; name $2"
    [ -r "$1" ] || die "cannot read '$1': permission denied"
    exec <"$1"
}

(: 3>&2) || exec 2>/dev/null
(: 3>&1) 2>/dev/null || die 'standard output is closed'
