#!/bin/bash
# Prints what a turn of the built program takes on pages whose handler never ends (of arithmetic, of variables, of `set-text`,
# and of a test of a text, the last under `plain -` and `multi -`), in nanoseconds of the processor and in instructions as
# callgrind counts them, beside a reduction of the same expression by the same machine in plain Rust. Of time it runs each pair
# seven times, by turns, and prints the fastest and the middle run of each. The instructions are those of a hundredth of the
# trace; what it takes without its clicks is taken off. Then it prints the most memory that a trace of 10,000 lines holds,
# beside one of 100 lines. It wants rustc and valgrind.
cd "$(dirname "$0")/.." || exit 1
if [ ! -f crates/ffox/out/stamp ] || [ "$(scripts/stamp)" != "$(cat crates/ffox/out/stamp)" ]; then
    echo "turns: ./build has not built these sources" >&2
    exit 1
fi
program=$PWD/crates/ffox/out/ffox
work=$(mktemp -d) || exit 1
trap 'rm -rf "$work"' EXIT
rustc -O -o "$work/plain" bench/plain.rs 2>"$work/errors" || { cat "$work/errors"; exit 1; }

# Each click spends the fuel of one input, and stops in one turn more.
clicks=1000
turns=$((clicks * 10001))
hundredth=$((turns / 100))

# The lines of a page whose button has a handler, as the file page; and those with all clicks, and with a hundredth of them.
write_traces() {
    {
        echo 'open http://a.com/'
        echo "reply a.com 0 (doc () (box b \"\") (text t \"\") (button g \"go\" (fn (n) $1)))"
        echo 'type 0 0 "pin"'
    } >"$work/page"
    {
        cat "$work/page"
        yes 'click 0 0' | head -n "$clicks"
    } >"$work/loop"
    head -n $((3 + clicks / 100)) "$work/loop" >"$work/hundredth"
}

# A trace of so many lines, each of which changes the page.
lines() {
    echo 'open http://a.com/'
    echo 'reply a.com 0 (doc () (box b "") (text t "") (button g "go" (fn (n) (set-text (find (page (self)) "t") "gone"))))'
    yes 'type 0 0 "some words"
click 0 0' | head -n $(($1 - 2))
}
lines 100 >"$work/short"
lines 10000 >"$work/long"

# The seconds of the processor that a command over a file takes.
TIMEFORMAT=%U
seconds() {
    file=$1
    shift
    { time "$@" <"$file" >/dev/null; } 2>&1 || exit 1
}

# The fastest and the middle one of the seven numbers in a file.
fastest_and_middle() {
    sort -n "$1" | sed -n '1p;4p' | tr '\n' ' '
}

# The instructions of a command over a file.
instructions() {
    valgrind --tool=callgrind --callgrind-out-file=/dev/null "$@" 2>&1 >/dev/null | sed -n 's/.*Collected : //p'
}

# Prints what a turn takes of the handler that a name stands for, under a command.
report() {
    : >"$work/ours"
    : >"$work/theirs"
    for _ in 1 2 3 4 5 6 7; do
        seconds "$work/loop" "$program" "$2" - >>"$work/ours"
        seconds /dev/null "$work/plain" script "$1" >>"$work/theirs"
    done
    reduction=$(($(instructions "$work/plain" script "$1") / 2000000))
    count=$(instructions "$program" "$2" - <"$work/hundredth")
    base=$(instructions "$program" "$2" - <"$work/page")
    echo "$(fastest_and_middle "$work/ours") $turns $(fastest_and_middle "$work/theirs") $(((count - base) / hundredth)) $reduction" |
        awk -v name="$1" -v command="$2" '{
            ours = 1e9 / $3
            theirs = 1e9 / 2000000
            printf "%s, %s -  %.0f ns a turn (middle %.0f), %.0f a second, ", name, command, $1 * ours, $2 * ours, $3 / $1
            printf "plain Rust %.0f ns (%.0f), ", $4 * theirs, $5 * theirs
            printf "ratio %.2f (%.2f); ", $1 * ours / ($4 * theirs), $2 * ours / ($5 * theirs)
            printf "%d instructions, plain Rust %d, ratio %.2f\n", $6, $7, $6 / $7
        }'
}

write_traces '(while (< (% 7 5) (* 3 4)) (+ (- 5 6) (/ 8 2)))'
report arithmetic plain
write_traces '(do (let a 1) (let b 2) (while true (do (set a b) (set b a))))'
report variables plain
write_traces '(do (let n (find (page (self)) "t")) (while true (set-text n "ab")))'
report set-text plain
write_traces '(while (= (text (find (page (self)) "b")) "pin") null)'
report loop plain
report loop multi
for command in plain multi; do
    for trace in short long; do
        /usr/bin/time -f "$command -, $(wc -l <"$work/$trace") lines  %M kB" "$program" $command - <"$work/$trace" 2>&1 >/dev/null
    done
done
