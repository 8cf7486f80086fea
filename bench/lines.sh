#!/bin/sh
# Prints how long the built program takes, how many MB that is a second, and how often as long as a copy of the same bytes by
# the same pieces: for 16 MiB of lines that open windows, for sixteen lines of 1 MB, and for one line of 1 MB that comes byte
# by byte through a pipe. Of three runs each the fastest counts.
cd "$(dirname "$0")/.." || exit 1
if [ ! -f crates/ffox/out/stamp ] || [ "$(scripts/stamp)" != "$(cat crates/ffox/out/stamp)" ]; then
    echo "lines: ./build has not built these sources" >&2
    exit 1
fi
program=$PWD/crates/ffox/out/ffox
work=$(mktemp -d) || exit 1
trap 'rm -rf "$work"' EXIT

yes 'open http://a.com/x' | head -c 16777216 >"$work/short"
{
    printf 'type 0 0 "'
    head -c 1000000 /dev/zero | tr '\0' 'a'
    printf '"\n'
} >"$work/one"
for _ in 1 2 3 4 5 6 7 8 9 10 11 12 13 14 15 16; do
    cat "$work/one"
done >"$work/long"

# The microseconds of the fastest of three runs of a shell command.
fastest() {
    best=
    for _ in 1 2 3; do
        start=$(date +%s%N)
        sh -c "$1" >/dev/null || exit 1
        took=$((($(date +%s%N) - start) / 1000))
        if [ -z "$best" ] || [ "$took" -lt "$best" ]; then
            best=$took
        fi
    done
    echo "$best"
}

# compare NAME FILE COMMAND COPY
compare() {
    bytes=$(wc -c <"$work/$2")
    ours=$(fastest "$3") || exit 1
    copy=$(fastest "$4") || exit 1
    echo "$1  $ours us, $((bytes / ours)) MB a second, copy $copy us, ratio $((ours / copy))"
}

compare "16 MiB of short lines, multi -" short "'$program' multi - <'$work/short'" "dd bs=64k status=none <'$work/short'"
compare "16 MiB of short lines, plain -" short "'$program' plain - <'$work/short'" "dd bs=64k status=none <'$work/short'"
compare "sixteen lines of 1 MB, fmt -  " long "'$program' fmt - <'$work/long'" "dd bs=64k status=none <'$work/long'"
compare "1 MB byte by byte, fmt -      " one "dd bs=1 status=none <'$work/one' | '$program' fmt -" "dd bs=1 status=none <'$work/one' | dd bs=64k status=none"
