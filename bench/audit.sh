#!/bin/sh
# Prints what `audit` takes beside `multi` and `plain` on the same trace: seconds of the processor, instructions as callgrind
# counts them over a tenth of the trace, and the most memory that is held. First two traces of 100,000 inputs on which both
# programs put the same lines: of one the handler of a page makes an activation for each, so that each browser grows; of the
# other no browser does, so what grows there is what the audit keeps. Then a page that asks for more after a secret, where
# one program puts more. Of three runs each the fastest counts. It wants valgrind.
cd "$(dirname "$0")/.." || exit 1
if [ ! -f crates/ffox/out/stamp ] || [ "$(scripts/stamp)" != "$(cat crates/ffox/out/stamp)" ]; then
    echo "audit: ./build has not built these sources" >&2
    exit 1
fi
program=$PWD/crates/ffox/out/ffox
work=$(mktemp -d) || exit 1
trap 'rm -rf "$work"' EXIT
cd "$work" || exit 1

# A page whose handler writes what was typed, and so many inputs that it shows.
agreeing() {
    echo 'open http://a.com/'
    echo 'reply a.com 0 (doc () (text t "") (box b "" (fn (n) (set-text (find (page (self)) "t") (text n)))))'
    yes 'type 0 0 "hi"' | head -n "$1"
}
# The same without a handler.
still() {
    echo 'open http://a.com/'
    echo 'reply a.com 0 (doc () (box b ""))'
    yes 'type 0 0 "hi"' | head -n "$1"
}
# A page that asks again and again, and so many clicks after a secret.
differing() {
    echo 'open http://evil.com/'
    echo 'reply evil.com 0 (doc () (box b "") (button g "go" (fn (n) (ask "http://evil.com/x" (text (find (page (self)) "b")) (fn (r) null)))))'
    echo '@H type 0 0 "pin"'
    yes "$(printf 'click 0 0\nreply evil.com 0 (data () "")')" | head -n "$1"
}

# The fastest of three runs, in seconds, and the most memory in MB.
timed() {
    for _ in 1 2 3; do
        /usr/bin/time -f '%U %S %M' "$program" "$1" - <"$2" 2>&1 >/dev/null | tail -n 1
    done | awk '{ t = $1 + $2; if (!best || t < best) best = t; if ($3 > most) most = $3 } END { printf "%.2f %.1f", best, most / 1024 }'
}
counted() {
    head -n "$3" "$2" >few
    valgrind --tool=callgrind --callgrind-out-file=/dev/null "$program" "$1" - <few 2>&1 >/dev/null | awk '/Collected/ { print $4 }'
}

shown() {
    echo "$1:"
    for word in multi plain audit; do
        # shellcheck disable=SC2046
        set -- $(timed $word trace) $(counted $word trace 10000)
        echo "$word $*"
    done | awk '
        { seconds[$1] = $2; memory[$1] = $3; instructions[$1] = $4; printf "  %-6s %s s, %s MB, %s instructions of a tenth\n", $1, $2, $3, $4 }
        END {
            printf "  audit by both together: %.2f of the seconds, %.3f of the instructions; by multi: %.2f of the memory\n",
                seconds["audit"] / (seconds["multi"] + seconds["plain"] + 0.001), instructions["audit"] / (instructions["multi"] + instructions["plain"]), memory["audit"] / memory["multi"]
        }'
}
agreeing 100000 >trace
shown "100,000 inputs of a handler, on which both put the same"
still 100000 >trace
shown "100,000 inputs without a handler, on which both put the same"
differing 20000 >trace
shown "20,000 inputs after a difference"
