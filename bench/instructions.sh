#!/bin/sh
# Prints how many instructions a byte the built program takes, counted by callgrind, which counts alike on every machine: for
# lines that open windows under `multi -` and `plain -`, and for replies with documents of 170 kB under `fmt -`. For the second it prints
# the most memory that the program held too. What an empty input takes is taken off.
cd "$(dirname "$0")/.." || exit 1
if [ ! -f crates/ffox/out/stamp ] || [ "$(scripts/stamp)" != "$(cat crates/ffox/out/stamp)" ]; then
    echo "instructions: ./build has not built these sources" >&2
    exit 1
fi
program=$PWD/crates/ffox/out/ffox
work=$(mktemp -d) || exit 1
trap 'rm -rf "$work"' EXIT
: >"$work/empty"
yes 'open http://a.com/x' | head -n 52428 >"$work/lines"
part='(div e (text t "some words of a page") (link a http://a.b/c "label") (button b "go" (fn (e) (set x (+ x 1)))))'
page="reply a.com 0 (doc () (div d$(yes " $part" | head -n 1560 | tr -d '\n')))"
for _ in 1 2 3 4 5 6; do
    printf '%s\n' "$page"
done >"$work/pages"

# The instructions of a command over a file.
instructions() {
    file=$1
    shift
    valgrind --tool=callgrind --callgrind-out-file=/dev/null "$program" "$@" <"$file" 2>&1 >/dev/null |
        sed -n 's/.*Collected : //p'
}

# Prints the instructions a byte of a command over a file.
report() {
    bytes=$(wc -c <"$2")
    base=$(instructions "$work/empty" "$3" -)
    count=$(instructions "$2" "$3" -)
    echo "$1  $(((count - base) / bytes)) instructions a byte"
}

report 'multi -, lines that open windows' "$work/lines" multi
report 'plain -, the same               ' "$work/lines" plain
report 'fmt -, documents of 170 kB      ' "$work/pages" fmt
/usr/bin/time -f 'fmt -, the most memory held        %M kB' "$program" fmt - <"$work/pages" >/dev/null
