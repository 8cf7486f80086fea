#!/bin/sh
# Prints what the built program takes to put nodes before many others, for one click whose handler does nothing else until a fuel
# of 1,000,000 is spent, beside as many that plain Rust puts before all others in a vector: the seconds of the fastest of three
# runs. It wants rustc.
cd "$(dirname "$0")/.." || exit 1
if [ ! -f crates/ffox/out/stamp ] || [ "$(scripts/stamp)" != "$(cat crates/ffox/out/stamp)" ]; then
    echo "inserts: ./build has not built these sources" >&2
    exit 1
fi
program=$PWD/crates/ffox/out/ffox
work=$(mktemp -d) || exit 1
trap 'rm -rf "$work"' EXIT
rustc -O -o "$work/plain" bench/plain.rs 2>"$work/errors" || { cat "$work/errors"; exit 1; }
cd "$work" || exit 1
echo '{"version":1,"levels":["L"],"below":[],"ui":"L","domain":"L","fuel":1000000}' >policy
cat >trace <<'END'
open http://a.com/
reply a.com 0 (doc () (div d) (button g "go" (fn (n) (while true (insert (find (page (self)) "d") (new (text t "x")) 0)))))
click 0 0
END
for _ in 1 2 3; do
    /usr/bin/time -o seconds -f %U "$program" plain policy <trace >lines || exit 1
    cat seconds
done | sort -n | head -n 1 >ours
count=$(grep -o '(text "x")' lines | wc -l)
for _ in 1 2 3; do
    ./plain inserts "$count" | awk '{ print $2 / 1e9 }'
done | sort -n | head -n 1 >theirs
echo "$(cat ours) $(cat theirs)" | awk -v count="$count" '{ printf "%d nodes before others: %.2f s, plain Rust %.2f s, ratio %.2f\n", count, $1, $2, $1 / $2 }'
