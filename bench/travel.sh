#!/bin/sh
# Prints what a travel of 10,000 commands takes, of which each arrival's drain puts a line: seconds of the processor and the
# most memory that is held; the same where nothing is drained, so that all inputs wait; and what 100,000 turns take that are
# kept, and these with as many steps back. Of three runs each the fastest counts.
cd "$(dirname "$0")/.." || exit 1
if [ ! -f crates/ffox/out/stamp ] || [ "$(scripts/stamp)" != "$(cat crates/ffox/out/stamp)" ]; then
    echo "travel: ./build has not built these sources" >&2
    exit 1
fi
program=$PWD/crates/ffox/out/ffox
work=$(mktemp -d) || exit 1
trap 'rm -rf "$work"' EXIT
cd "$work" || exit 1

# A page that shows what was typed, and so many commands: arrivals, each with a drain that puts a line.
drained() {
    echo 'arrive open http://a.com/'
    echo 'arrive reply a.com 0 (doc () (box b ""))'
    yes "$(printf 'arrive type 0 0 "hi"\ndrain')" | head -n "$1"
}
# The fastest of three runs, in seconds, and the most memory in MB.
timed() {
    for _ in 1 2 3; do
        /usr/bin/time -f '%U %S %M' "$program" travel - <"$1" 2>&1 >/dev/null | tail -n 1
    done | awk '{ t = $1 + $2; if (!best || t < best) best = t; if ($3 > most) most = $3 } END { printf "%.3f %.1f", best, most / 1024 }'
}
drained 10000 >trace
echo "10,000 commands, a line for each drain: $(timed trace | awk '{ print $1 " s, " $2 " MB" }')"
{ echo 'arrive open http://a.com/'; yes 'arrive type 0 0 "hi"' | head -n 10000; } >trace
echo "10,000 inputs that wait: $(timed trace | awk '{ print $1 " s, " $2 " MB" }')"
{ drained 5000; yes turn\ L | head -n 100000; } >trace
steps=$(timed trace | cut -d ' ' -f 1)
yes back | head -n 100000 >>trace
both=$(timed trace | cut -d ' ' -f 1)
echo "100,000 turns: $steps s; and then 100,000 steps back: $both s in all, so a step and its way back take $(echo "$both" | awk '{ printf "%.2f", $1 * 10 }') microseconds"
