# What the scripts of the gate share. A script sources it first, as `. "$(dirname "$0")/common.sh"`: it goes to the top
# of the repository, makes a temporary folder, $work, and puts the programs that `build` builds on PATH.
# shellcheck shell=bash
set -euo pipefail
cd "$(dirname "${BASH_SOURCE[0]}")/.."
work=$(mktemp -d)
trap 'rm -rf "$work"' EXIT
mkdir "$work/bin"
PATH=$work/bin:$PATH
export PYTHONDONTWRITEBYTECODE=1
script=$(basename "$0")
# how long a command that `ends` runs may take
seconds=60

# fail TEXT: ends the script
fail() {
    printf '%s: %s\n' "$script" "$1" >&2
    exit 1
}

# build NAME..: proves and builds programs, which can then be called by their names
build() {
    local name log
    for name in "$@"; do
        log=$(cd "crates/$name" && rt run -- --version 2>&1 </dev/null) || {
            printf '%s\n' "$log" | tail -n 20 >&2
            fail "$name cannot be built"
        }
        ln -s "$PWD/crates/$name/out/$name" "$work/bin/$name"
    done
}

# ends STATUS COMMAND..: runs a command, which has to end with this status within $seconds. What it prints is then in
# $work/printed, and what it tells on standard error in $work/told.
ends() {
    local wanted=$1 status=0
    shift
    what=$*
    timeout "$seconds" "$@" >"$work/printed" 2>"$work/told" || status=$?
    [ "$status" -eq "$wanted" ] || {
        head -n 5 "$work/told" >&2
        fail "status $status, not $wanted: $what"
    }
}

# same FILE WANTED: the two files are the same
same() {
    cmp -s "$1" "$2" || {
        diff -aU 3 "$2" "$1" | head -n 24 >&2 || true
        fail "not what is wanted (-) but something else (+): $what"
    }
}

# prints TEXT, tells TEXT: the whole of what the last command printed, or told on standard error; \n is a line feed
prints() {
    printf '%b' "$1" >"$work/wanted"
    same "$work/printed" "$work/wanted"
}
tells() {
    printf '%b' "$1" >"$work/wanted"
    same "$work/told" "$work/wanted"
}

# complains [TEXT]: the last command printed nothing, and told something, which has this text in it
complains() {
    [ ! -s "$work/printed" ] || fail "it printed something: $what"
    [ -s "$work/told" ] || fail "nothing on standard error: $what"
    grep -qF -e "${1-}" "$work/told" || fail "no '${1-}' on standard error: $what"
}

# some NAME FILE..: there is a file
some() {
    [ -e "$2" ] || fail "there are no $1"
}

# bytes NUMBERS: the bytes of hexadecimal numbers with spaces between them
bytes() {
    local escaped
    [ -n "$1" ] || return 0
    # shellcheck disable=SC2086 # one word a byte
    printf -v escaped '\\x%s' $1
    printf '%b' "$escaped"
}

# zeros COUNT: so many bytes 0
zeros() {
    head -c "$1" /dev/zero
}

# timed: its input, with the seconds since SECONDS was set at the end of each line of `rt`
timed() {
    local line
    while IFS= read -r line || [ -n "$line" ]; do
        case $line in
        'rt: '*) printf '%s [%d s]\n' "$line" "$SECONDS" ;;
        *) printf '%s\n' "$line" ;;
        esac
    done
}
