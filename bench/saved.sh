#!/bin/sh
# Prints what it takes to read a saved state and to write it again, beside `fmt` over a trace of as many bytes: seconds of the
# processor, the most memory that is held, and both as multiples, of `fmt`'s time and of the state's size. Of three runs each the
# fastest counts. One state has 1,526 variables that hold one text of 65,536 bytes, the other as many nodes as there may be.
cd "$(dirname "$0")/.." || exit 1
if [ ! -f crates/ffox/out/stamp ] || [ "$(scripts/stamp)" != "$(cat crates/ffox/out/stamp)" ]; then
    echo "saved: ./build has not built these sources" >&2
    exit 1
fi
program=$PWD/crates/ffox/out/ffox
work=$(mktemp -d) || exit 1
trap 'rm -rf "$work"' EXIT
cd "$work" || exit 1
echo '{"version":2,"levels":["L"],"below":[],"ui":"L","domain":"L","fuel":1000000}' >policy

# The state after a page with this script.
state() {
    {
        echo 'open http://a.com/'
        echo "reply a.com 0 (doc () (script s (do $1)))"
    } | "$program" resume policy - | sed -n '/^ffox-saved 1$/,$p'
}

# The fastest of three runs of these words, in seconds, and the most memory in MB.
timed() {
    input=$1
    shift
    for _ in 1 2 3; do
        /usr/bin/time -f '%U %S %M' "$program" "$@" <"$input" 2>&1 >/dev/null | tail -n 1
    done | awk '{ t = $1 + $2; if (!best || t < best) best = t; if ($3 > most) most = $3 } END { printf "%.2f %.1f", best, most / 1024 }'
}

# compare NAME LINE: the state that lies in `saved`, beside a trace of such lines with as many bytes.
compare() {
    bytes=$(wc -c <saved)
    yes "$2" | head -c "$bytes" | sed '$d' >trace
    resumed=$(timed /dev/null resume policy saved)
    formatted=$(timed trace fmt policy)
    echo "$1 $bytes $resumed $formatted" | awk '{ printf "%s, %.1f MB: resume %.2f s, %.1f MB; fmt %.2f s; ratios %.1f of fmt, %.1f of its size\n", $1, $2 / 1e6, $3, $4, $5, $3 / $5, $4 * 1048576 / $2 }'
}

variables=$(awk 'BEGIN { for (i = 0; i < 1526; i++) printf " (let v%d x)", i }')
state "(let x \"a\") (while (< (len x) 65536) (set x (cat x x)))$variables" >saved
{ printf 'type 0 0 "'; head -c 65536 /dev/zero | tr '\0' 'a'; printf '"'; } >line
compare variables "$(cat line)"
state '(while true (new (div d (div e) (div e) (div e) (div e) (div e) (div e) (div e) (div e) (div e) (div e) (div e) (div e) (div e) (div e) (div e) (div e))))' >saved
compare nodes 'type 0 0 "12345678"'
