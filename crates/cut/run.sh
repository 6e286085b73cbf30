#!/bin/sh
# run.sh LIST: cuts the document on the standard input by a list, with the program `cut` as rt built it, and prints what it prints. A list
# that is not there is none. PROGRAM names another build of it.
set -eu
program=${PROGRAM:-$(dirname "$(readlink -f "$0")")/out/cut}
room=$(mktemp -d)
trap 'rm -rf "$room"' EXIT
[ ! -e "$1" ] || cp "$1" "$room/paths.lst"
program=$(readlink -f "$program")
cd "$room"
"$program"
