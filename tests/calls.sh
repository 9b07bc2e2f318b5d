# shellcheck shell=sh
# What the tests of scripts share; read by '.' from a test that has set `name`, the script's. It sets top, room (a folder that goes at
# the end), script and program; the test calls the script, holds each call to what it should be, and ends with `count`.
top=$(CDPATH='' cd -- "$(dirname -- "$0")/.." && pwd -P) || exit 2
room=$(mktemp -d) || exit 2
trap 'rm -rf "$room"' EXIT
trap 'exit 2' HUP INT TERM
chmod 755 "$room"
script=$top/$name
crate=$(echo "$name" | tr - _)
program=$top/crates/$crate/out/$crate
passed=0 failed=0

# ---- a call, and what it left

pass() {
    passed=$((passed + 1))
    printf 'ok      %s\n' "$1"
}

fail() { # NAME WHY
    failed=$((failed + 1))
    printf 'FAILED  %s: %s\n' "$1" "$2"
    sed 's/^/        standard error: /' "$room/err"
}

# Calls a command, and keeps what it wrote and its status.
call() {
    "$@" >"$room/out" 2>"$room/err"
    echo $? >"$room/status"
}

# Whether standard error is as the pattern has it.
said() { # PATTERN
    # shellcheck disable=SC2254 # a pattern is meant
    case $(cat "$room/err") in $1) true ;; *) false ;; esac
}

# Holds the last call to a status, the file of lines that it should have printed, and a pattern for standard error.
# A call is held once: where the next one cannot be made, this one does not stand in for it.
expect() { # NAME STATUS LINES PATTERN
    status=$(cat "$room/status")
    rm -f "$room/status"
    if [ "$status" != "$2" ]; then
        fail "$1" "status '$status', not $2"
    elif ! cmp -s "$3" "$room/out"; then
        fail "$1" "standard output is not as it should be, and begins: $(head -n 2 "$room/out")"
    elif ! said "$4"; then
        fail "$1" "standard error is not: $4"
    else
        pass "$1"
    fi
}

# Holds the last call to having failed: nothing printed, status 2, and a message.
expect_failure() { # NAME PATTERN
    expect "$1" 2 /dev/null "$name: $2"
}

holds() { # NAME WHY-NOT CONDITION...
    held=$1 why=$2
    shift 2
    if "$@"; then pass "$held"; else fail "$held" "$why"; fi
}

# Runs a command as a user who is not root.
as_user() {
    if [ "$(id -u)" -ne 0 ]; then "$@"; else setpriv --reuid=65534 --regid=65534 --clear-groups "$@"; fi
}

# The script and what it reads by '.', in a folder of its own.
copy_script() { # FOLDER
    mkdir -p "$1/tools"
    cp "$script" "$1/"
    cp "$top/tools/proved.sh" "$1/tools/"
}

# The last line, and the status.
count() {
    echo "$name: $passed passed, $failed failed"
    [ "$failed" -eq 0 ]
}
