#!/bin/sh
# Prints what `multi` takes beside `plain` on the same trace: seconds of the processor, instructions as callgrind counts them
# over a tenth of the trace, and the most memory that is held. First for two and for sixteen levels which see the same of every line, so that one copy
# does for all; then for sixteen levels of which each sees something else in the first lines, so that there are sixteen copies.
# Of three runs each the fastest counts. It wants valgrind.
cd "$(dirname "$0")/.." || exit 1
if [ ! -f crates/ffox/out/stamp ] || [ "$(scripts/stamp)" != "$(cat crates/ffox/out/stamp)" ]; then
    echo "copies: ./build has not built these sources" >&2
    exit 1
fi
program=$PWD/crates/ffox/out/ffox
work=$(mktemp -d) || exit 1
trap 'rm -rf "$work"' EXIT
cd "$work" || exit 1

# A policy of so many levels, each below the next, and so much fuel.
policy() {
    levels='"L0"'
    below=
    for level in $(seq 1 $(($1 - 1))); do
        levels="$levels,\"L$level\""
        below="$below,[\"L$((level - 1))\",\"L$level\"]"
    done
    echo "{\"version\":1,\"levels\":[$levels],\"below\":[${below#,}],\"ui\":\"L$(($1 - 1))\",\"domain\":\"L0\",\"fuel\":$2}"
}
policy 2 10000 >two
policy 16 10000 >sixteen

# A page whose handler never ends, and so many clicks.
page() {
    echo 'open http://a.com/'
    echo 'reply a.com 0 (doc () (box b "") (button g "go" (fn (n) (while (= (text (find (page (self)) "b")) "") null))))'
    yes 'click 0 0' | head -n "$1"
}
# A line for each level but the first, which the levels below it don't see. It does nothing: no window stands at that place.
parts() {
    for level in $(seq 1 15); do
        echo "@L$level close 63"
    done
}
page 100 >same
page 10 >same.tenth
{
    parts
    page 100
} >split
{
    parts
    page 10
} >split.tenth

# The seconds of the processor that the fastest of three runs of a command takes.
fastest() {
    for _ in 1 2 3; do
        /usr/bin/time -o seconds -f %U "$program" "$1" "$2" <"$3" >/dev/null || exit 1
        cat seconds
    done | sort -n | head -n 1
}

# The instructions of a command.
instructions() {
    valgrind --tool=callgrind --callgrind-out-file=/dev/null "$program" "$1" "$2" <"$3" 2>&1 >/dev/null |
        sed -n 's/.*Collected : //p'
}

# The seconds, the instructions and the kilobytes of a command.
measure() {
    memory=$(/usr/bin/time -f %M "$program" "$1" "$2" <"$3" 2>&1 >/dev/null)
    echo "$(fastest "$1" "$2" "$3") $(instructions "$1" "$2" "$3.tenth") $memory"
}

# compare NAME POLICY TRACE
compare() {
    echo "$(measure multi "$2" "$3") $(measure plain "$2" "$3")" |
        awk -v name="$1" '{
            printf "%s  %.2f s, ratio %.2f; %.0f instructions, ratio %.3f; %d kB, ratio %.3f\n", name, $1, $1 / $4, $2, $2 / $5, $3, $3 / $6
        }'
}
compare 'two levels that never part      ' two same
compare 'sixteen levels that never part  ' sixteen same
compare 'sixteen levels, sixteen copies  ' sixteen split
