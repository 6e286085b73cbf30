#!/bin/sh
# count.sh PROGRAM PARSERS..: instructions that one call of the library, the baseline and parsers executes for each byte of a gazetteer of
# about 1 MiB, by three lists, as callgrind counts them. They go by the code alone, not by what else the machine does. A parser has no list.
set -eu
program=$1
shift
size=1048576
notes=$(mktemp -d)
trap 'rm -rf "$notes"' EXIT

# count WHAT LIST: instructions a byte.
count() {
    valgrind --tool=callgrind --callgrind-out-file=/dev/null --toggle-collect=counted "$program" "$1" "$2" $size \
        > "$notes/printed" 2> "$notes/said" || { cat "$notes/said"; exit 1; }
    awk -v bytes="$(cut -d ' ' -f 1 "$notes/printed")" '/Collected :/ { printf "%.1f", $NF / bytes }' "$notes/said"
}

printf '%-12s%12s%12s%12s\n' 'a byte' '32 x 8' atlas desk
for what in ours baseline; do
    printf '%-12s' $what
    for list in long atlas desk; do printf '%12s' "$(count $what $list)"; done
    echo
done
for what in "$@"; do printf '%-12s%12s\n' "$what" "$(count "$what" desk)"; done
