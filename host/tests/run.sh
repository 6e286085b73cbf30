#!/bin/sh
# run.sh PROGRAM: runs the command as a user does, and compares status, standard output and standard error with what stands in the parts
# beside this file, worked out by hand. LIBRARY is what the examples in C are linked to; where that is for another machine, RUN starts its
# programs and CC compiles for it. Prints a line for each run that differs, and how many there were; fails if any differs. This file has
# how a run is written; the parts the runs.
set -eu
here=$(dirname "$(readlink -f "$0")")
root=$(readlink -f "$here/../..")
program=$(readlink -f "$1")
run=${RUN-}
library=$(readlink -f "${LIBRARY:-$root/target/native/libexported.a}")
room=$(mktemp -d)
notes=$(mktemp -d)
trap 'rm -rf "$room" "$notes"' EXIT
chmod 755 "$room"
cd "$room"
umask 022

ran=0 wrong=0 foreign=

# Before a run: what it reads, prints and says. Nothing, unless these are called; `prints` takes a text, `lines` and `says` whole lines.
fresh() { input=/dev/null user= && : > "$notes/prints" && : > "$notes/says"; }
prints() { printf %s "$1" > "$notes/prints"; }
lines() { printf '%s\n' "$@" > "$notes/prints"; }
says() { printf '%s\n' "$@" > "$notes/says"; }
# Under 1 to 13 what is said ends in a line that leads on, unless it is JSON or the program is not the command.
leads() {
    case $1 in [1-9] | 1[0-3]) ;; *) return 0 ;; esac
    [ -n "$foreign" ] || [ ! -s "$notes/says" ] || grep -q '^{' "$notes/says" || echo "choughbell explain $1 tells more" >> "$notes/says"
}
usage() { says "choughbell: $1" 'choughbell --help tells more'; }

# shellcheck disable=SC2086
start() { $user $run "$program" "$@"; }

# fault NAME WHAT: the run is wrong.
fault() { wrong=$((wrong + 1)) && echo "choughbell: $1: $2"; }

# status NAME EXPECTED GOT
status() { [ "$2" = "$3" ] || fault "$1" "status $3, not $2"; }

# same NAME EXPECTED-FILE FILE
same() { cmp -s "$2" "$3" || fault "$1" "$(basename "$2"): $(head -c 400 "$3" | tr '\n' '~')"; }

# try NAME STATUS WORDS..: one run.
try() {
    name=$1 expected=$2 got=0
    shift 2
    ran=$((ran + 1))
    leads "$expected"
    start "$@" < "$input" > "$notes/printed" 2> "$notes/said" || got=$?
    status "$name" "$expected" "$got"
    same "$name" "$notes/prints" "$notes/printed"
    same "$name" "$notes/says" "$notes/said"
    fresh
}

# holds NAME FILE TEXT: a file has this text, and no temporary file is left beside it.
holds() {
    printf %s "$3" > "$notes/holds"
    same "$1" "$notes/holds" "$2"
    left=$(find "$(dirname "$2")" -maxdepth 1 -name '.choughbell*')
    [ -z "$left" ] || fault "$1" "left $left"
}

# repeat N TEXT
repeat() { awk -v n="$1" -v t="$2" 'BEGIN { for (i = 0; i < n; i++) printf "%s", t }'; }

fresh
for part in answers documents sizes pack files mend each show broken words explained scripts plain batch covers clients rows around; do
    . "$here/$part.sh"
done
echo "choughbell: $ran runs, $wrong wrong"
[ "$wrong" -eq 0 ]
