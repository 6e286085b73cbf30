#!/bin/sh
# native.sh FOLDER: proves the static libraries `exported_c`, `clients_c` and `spreadsheet_c`, of which the toolchain makes code of each by
# itself: so what they share is compiled for each as it needs it. The three together are one archive, libexported.a: for x86-64 in
# FOLDER/x86, for the machine at hand in FOLDER. On x86-64 these are the same. Each is for every processor of its kind. An archive has the
# functions that the header declares, and calls nothing but memset and memcpy.
set -eu
folder=$1
header=$(dirname "$(readlink -f "$0")")/include/choughbell.h
machine=$(uname -m)
work=$(mktemp -d)
trap 'rm -rf "$work"' EXIT

# same WHAT FILE FILE: two lists of names are the same.
same() {
    cmp -s "$2" "$3" || { echo "$1: the archive has"; cat "$2"; echo 'and should have'; cat "$3"; exit 1; }
}
grep -oE '\bchoughbell_[a-z_]+\(' "$header" | tr -d '(' | sort -u > "$work/declared"
printf '%s\n' memcpy memset > "$work/called"

# made MACHINE CPU FOLDER: the libraries, compiled for a machine, and their archive.
made() {
    mkdir -p "$3"
    rm -f "$3/libexported.a"
    for library in exported_c clients_c spreadsheet_c; do
        mkdir -p "$work/$1/$library"
        (cd "crates/$library" && rt lib --target "$1-unknown-linux-gnu" --cpu "$2")
        archive=$PWD/crates/$library/out/lib$library.a
        (cd "$work/$1/$library" && ar x "$archive" && for object in *.o; do mv "$object" "$library-$object"; done)
    done
    ar rcs "$3/libexported.a" "$work/$1"/*/*.o
    nm -g --defined-only "$3/libexported.a" | sed -n 's/.* T //p' | sort > "$work/exported"
    nm -u "$3/libexported.a" | sed -n 's/^ *U //p' | sort -u > "$work/undefined"
    same 'functions' "$work/exported" "$work/declared"
    same 'calls' "$work/undefined" "$work/called"
}

made x86_64 x86-64 "$folder/x86"
if [ "$machine" = x86_64 ]; then
    cp "$folder/x86/libexported.a" "$folder/libexported.a"
else
    made "$machine" generic "$folder"
fi
