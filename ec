#!/usr/bin/env bash
# Runs the program with the words given. Where it is not built, its sources are run instead, unproved and checked while they run
# (rt try); ./build proves and builds it. This script never builds. What it has to say goes to standard error.
set -u
top="$(cd "$(dirname "$0")" && pwd)" || exit 1
program="$top/crates/ec/out/ec"
seconds="${EC_SECONDS:-60}" # how long a run of the sources may take, once they are compiled

say() {
    printf 'ec: %s\n' "$@" >&2
}

if [ -x "$program" ]; then
    if [ -n "$(find "$top/crates" -name out -prune -o -path '*/src/*.rt' -newer "$program" -print -quit)" ]; then
        say "the sources are newer than the program that is built, which this runs. ./build proves and builds it anew."
    fi
    exec "$program" "$@"
fi

if [ $# -eq 0 ]; then
    echo "usage: ec check THEORY / serve THEORY / replay THEORY LINES / soak N SEED / prove THEORY LINES P T / verify THEORY LINES CERT P T"
    say "the program is not built. ./build proves and builds it once, in about an hour; until then a command runs its sources."
    exit 2
fi
if ! command -v rt > /dev/null; then
    say "the program is not built, and the command rt was not found. Install the Rattle toolchain (kit rattle-kit-13f or 13b) and put its bin folder on the PATH."
    exit 1
fi
say "this run is of the sources, not proved yet, checked while it runs: it takes a minute or two, and replies come when the input has ended. ./build proves and builds the program once, in about an hour."

work="$(mktemp -d)" || exit 1
running=
finish() {
    if [ -n "$running" ]; then
        kill "$running" 2> /dev/null
        wait "$running" 2> /dev/null
    fi
    rm -rf "$work"
}
trap finish EXIT
trap 'exit 129' HUP
trap 'exit 130' INT
trap 'exit 143' TERM

# rt try runs the program in a folder of its own. The files that the words name are copied for it, under names that need no care: one
# that can't be read is not there, as it would not be for the program. A copy ends just above what the program takes of it.
: > "$work/input"
data=()
hand_over() { # the name there, the file, the greatest number of bytes
    if head -c $(($3 + 1)) < "$2" > "$work/$1"; then
        data+=(--data "$1=$work/$1")
    fi 2> /dev/null
}
words=("$@")
case "$#:$1" in
    2:check | 2:serve) words=("$1" theory) ;;
    3:replay) words=("$1" theory lines) ;;
    5:prove) words=("$1" theory lines "$4" "$5") ;;
    6:verify) words=("$1" theory lines certificate "$5" "$6") ;;
esac
if [ "${words[1]-}" = theory ]; then
    hand_over theory "$2" 1048576
fi
if [ "${words[2]-}" = lines ]; then
    hand_over lines "$3" 67108864
fi
if [ "${words[3]-}" = certificate ]; then
    hand_over certificate "$4" 67108864
fi
if [ "$#:$1" = 2:serve ]; then
    if ! cat > "$work/input"; then
        say "standard input could not be read"
        exit 4
    fi
    if [ "$(wc -c < "$work/input")" -gt 67108864 ]; then
        say "a run of the sources takes at most 67,108,864 bytes of standard input. Run ./build, and then this again."
        exit 1
    fi
fi

# The program's own status stands in the last line that rt try writes; its own status may be that of another thing that went wrong.
(cd "$top/crates/ec" && exec rt try --steps 1 --seconds "$seconds" "${data[@]}" -- "${words[@]}") \
    < "$work/input" > "$work/replies" 2> "$work/said" &
running=$!
wait "$running"
running=
if [[ "$(tail -n 1 "$work/said")" =~ ^run=ended\ status=([0-9]+)\  ]]; then
    status="${BASH_REMATCH[1]}"
    cat "$work/replies" || status=5
    exit "$status"
fi
if grep -q '^checked: no-answer: the program did not end within the time limit' "$work/said"; then
    say "the run of the sources did not end within $seconds seconds. EC_SECONDS=600 in front of the command gives it ten minutes; the program that ./build builds has no such limit."
elif grep -q '^checked: no-answer: the program wrote more than' "$work/said"; then
    say "the run of the sources wrote more than 1,048,576 bytes, which is its limit. The program that ./build builds has none."
else
    cat "$work/said" >&2
    say "the run of the sources gave no answer; see above."
fi
exit 1
