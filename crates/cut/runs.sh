#!/bin/sh
# Runs the program `cut` on the cases of runs.txt and compares what it prints with what stands there, byte by byte. Prints a line for each
# case that differs, and how many there were; fails if any differs.
set -eu
here=$(dirname "$(readlink -f "$0")")
room=$(mktemp -d)
trap 'rm -rf "$room"' EXIT

# Four lines for each case: its name and its three texts, with `(x)*N` written out.
awk -F'|' '
    function whole(s,    x, n, i, t) {
        gsub(/^ +| +$/, "", s)
        while (match(s, /[(][^()]*[)][*][0-9]+/)) {
            x = substr(s, RSTART, RLENGTH); n = x; t = ""
            sub(/[)][*][0-9]+$/, "", x); sub(/^[(]/, "", x); sub(/^.*[)][*]/, "", n)
            for (i = 0; i < n + 0; i++) t = t x
            s = substr(s, 1, RSTART - 1) t substr(s, RSTART + RLENGTH)
        }
        return s
    }
    /^#/ || !NF { next }
    { print whole($1); print whole($2); print whole($3); print whole($4) }' "$here/runs.txt" > "$room/cases"

ran=0 wrong=0
while IFS= read -r name && IFS= read -r list && IFS= read -r document && IFS= read -r expected; do
    rm -f "$room/list"
    [ "$list" = none ] || printf %b "$list" > "$room/list"
    printf %b "$document" > "$room/document"
    printf %b "$expected" > "$room/expected"
    ran=$((ran + 1))
    "$here/run.sh" "$room/list" < "$room/document" > "$room/printed" || echo "ended with status $?" >> "$room/printed"
    cmp -s "$room/expected" "$room/printed" || {
        wrong=$((wrong + 1))
        echo "cut: $name: printed $(head -c 200 "$room/printed" | tr '\n' '~')"
    }
done < "$room/cases"
echo "cut: $ran runs, $wrong wrong"
[ "$ran" -gt 0 ] && [ "$wrong" -eq 0 ]
