# What is beside the command: the header with the examples in C, the stack of a call, and what `make install` puts where.
for c in example/cut example/judge tests/stack tests/null; do
    ran=$((ran + 1))
    # shellcheck disable=SC2086
    ${CC:-cc} -std=c99 -Wall -Wextra -Werror -I "$root/host/include" -o "c-$(basename $c)" \
        "$root/host/$c.c" "$library" || fault "$c.c" 'does not compile'
done

# judge NAME STATUS DOCUMENT: a run of the example of a document alone.
judge() {
    program_before=$program program=$room/c-judge foreign=yes
    try "C: $1" "$2" "$3"
    program=$program_before foreign=
}
lines sound 'characters: 18 of 18 bytes'
judge 'a sound document' 0 b.xml
printf '<g><v></g>' > unmatched.xml
lines 'refused 7 6' 'characters: 10 of 10 bytes'
judge 'an end tag that does not match' 7 unmatched.xml
printf '<g>\377</g>' > byte.xml
lines 'refused 5 3' 'characters: 3 of 8 bytes'
judge 'a byte that is no character' 5 byte.xml
printf '<g/><!DOCTYPE g>' > later.xml
lines 'refused 6 4' 'characters: 16 of 16 bytes'
judge 'a document type' 6 later.xml
repeat 65 '<g>' > deep.xml
lines 'refused 8 192' 'characters: 195 of 195 bytes'
judge 'level 65' 8 deep.xml
printf '<?xml version="1.0" encoding="ISO-8859-1"?><g>\351</g>' > latin.xml
lines 'refused 10 0' 'characters: 46 of 51 bytes'
judge 'another encoding' 10 latin.xml
printf '\357\273\277<?xml version="1.0" encoding="UTF-16"?><g/>' > marked.xml
lines 'refused 10 3' 'characters: 46 of 46 bytes'
judge 'another encoding behind three bytes' 10 marked.xml
: > nothing.xml
lines 'refused 7 0' 'characters: 0 of 0 bytes'
judge 'no bytes' 7 nothing.xml

# example NAME STATUS WORDS..: a run of the example of a cut.
example() {
    program_before=$program program=$room/c-cut foreign=yes
    try "C: $1" "$2" "$3" "$4" ${5+"$5"}
    program=$program_before foreign=
}
prints '<g><p><v></v></p></g>'
says '1 selected, 3 name tests'
example 'a cut' 0 v.lst b.xml
prints '<g><p><v></v></p></g>'
says '1 selected, 3 name tests'
example 'room enough' 0 v.lst b.xml 21
prints '<g><v><n/></v></g>'
says '2 selected, 6 name tests'
example 'inside a kept entry' 0 two.lst h.xml
# Four bytes are cut to seven, 2 * 4 - 1: all the room that the example takes. No bytes have no room.
printf '<g/>' > tag.xml
printf '/g\n' > root.lst
prints '<g></g>'
says '0 selected, 0 name tests'
example 'the longest cut' 0 none.lst tag.xml
prints '<g></g>'
says '1 selected, 1 name tests'
example 'the longest cut, in its room' 0 root.lst tag.xml 7
says 'refused 9 7'
example 'the longest cut, one byte short' 9 none.lst tag.xml 6
says 'refused 7 0'
example 'no bytes' 7 v.lst nothing.xml
says 'refused 9 21'
example 'one byte short' 9 v.lst b.xml 20
says 'refused 9 21'
example 'no room' 9 v.lst b.xml 0
says 'refused 2 3'
example 'a malformed line' 2 atlas.lst b.xml
says 'refused 7 3'
example 'not well-formed' 7 v.lst bad.xml
says 'refused 10 0'
example 'another encoding' 10 v.lst latin.xml

# The most lines and steps, each with a test, and elements at all levels, with values and references: the stack that the header says.
value='k="&#x78;"'
repeat 32 "//*$(repeat 15 /self::*)[@k=\"x\"] #
" > most.lst
inner="<?p é?><![CDATA[é]]><g $value/><g $value>é</g>"
{ echo '<?xml version="1.0"?><!-- é -->' && repeat 63 "<g $value>é&amp;" && echo "$inner" && repeat 63 '</g>'; } > most.xml
program_before=$program program=$room/c-stack
less='less than 98304 bytes of stack'
lines "answer 0: $less" 'answer 0: less than 65536 bytes of stack' 'answer 0: less than 196608 bytes of stack' "answer 0: $less" \
    "answer 0: $less" 'answer 0: less than 8192 bytes of stack' "answer 0: $less" 'answer 0: less than 524288 bytes of stack' \
    'answer 0: less than 393216 bytes of stack'
try 'C: the stack of a call' 0 most.lst most.xml
program=$program_before

# The constants of the header, and null with length 0.
program_before=$program program=$room/c-null
lines 0.4.0
try 'C: constants and null' 0
program=$program_before

# put WHERE WORDS..: `make install` or `make uninstall`, quietly.
put() { MAKEFLAGS='' make -s -C "$root" "$@" > "$notes/printed" 2>&1 || fault "make $*" "$(tr '\n' '~' < "$notes/printed")"; }
ran=$((ran + 2))
put install DESTDIR="$room/stage" PREFIX=/opt/chough
for file in bin/choughbell share/man/man1/choughbell.1 include/choughbell.h lib/libchoughbell.a lib/pkgconfig/choughbell.pc \
    share/bash-completion/completions/choughbell share/zsh/site-functions/_choughbell share/fish/vendor_completions.d/choughbell.fish; do
    [ -f "stage/opt/chough/$file" ] || fault 'make install' "no $file"
done
ran=$((ran + 1))
pc=stage/opt/chough/lib/pkgconfig/choughbell.pc
[ "$(sed -n '/^prefix\|^Version/p' $pc | tr '\n' ' ')" = 'prefix=/opt/chough Version: 0.4.0 ' ] || fault 'pkg-config' "$(cat $pc)"
if command -v pkg-config > "$notes/found"; then
    got=$(PKG_CONFIG_PATH=$(dirname $pc) pkg-config --cflags --libs choughbell | sed 's/ *$//')
    [ "$got" = '-I/opt/chough/include -L/opt/chough/lib -lchoughbell' ] || fault 'pkg-config' "$got"
fi

# Completion: in bash as a user has it, and in all three shells each command and option that the help names.
# completes NAME EXPECTED WORDS..: what bash offers for the last word, in order.
completes() {
    ran=$((ran + 1)) name=$1 expected=$2
    shift 2
    got=$(bash -c '. "$0" && COMP_WORDS=("$@") COMP_CWORD=$(($# - 1)) && before=$(($# - 1)) &&
        _choughbell choughbell "${!#}" "${!before}" && echo "${COMPREPLY[*]}"' "$root/host/completion/choughbell.bash" "$@")
    [ "$got" = "$expected" ] || fault "completion: $name" "$got"
}
if command -v bash > "$notes/found"; then
    completes 'a command' 'cut check covers' choughbell c
    completes 'options of cut' '--path --packed --plain' choughbell cut --p
    completes 'options of check' '--quiet --json --help --version' choughbell check --
    completes 'a list' v.lst choughbell cut -l v.ls
    completes 'a number' '6 64 66' choughbell explain 6
    completes 'no path' '' choughbell cut -e b.x
fi
for shell in choughbell.bash _choughbell choughbell.fish; do
    ran=$((ran + 1))
    for word in $(start --help | sed -n -e 's/^  choughbell \([a-z]*\).*/\1/p' -e 's/^  .\{4\}--\([a-z]\{1,\}\).*/\1/p'); do
        grep -q -- "\b$word\b" "$root/host/completion/$shell" || fault "completion: $shell" "no $word"
    done
done
run_before=$run program_before=$program run='' program=$room/stage/opt/chough/bin/choughbell
prints '<g><p><v></v></p></g>'
try 'the installed command' 0 cut -l ' v.lst' 'a b.xml'
ln -s "$program" started
program=$room/started
prints '<g><p><v></v></p></g>'
try 'the installed command, by a link' 0 cut -l v.lst b.xml
run=$run_before program=$program_before

# The crate for Rust, elsewhere than in the repository, finds the library as it is installed, by its name there.
if [ -z "$run" ] && command -v cargo > "$notes/found"; then
    ran=$((ran + 1))
    mkdir -p crate/uses/src && cp -r "$root/host/src" "$root/host/Cargo.toml" "$root/host/build.rs" crate/
    printf '[package]\nname = "uses"\nversion = "0.1.0"\nedition = "2021"\n[dependencies]\nchoughbell = { path = ".." }\n[workspace]\n' \
        > crate/uses/Cargo.toml
    echo 'fn main() { println!("{:?}", choughbell::cut_of(b"//v\n", b"<g><v/></g>").map(|cut| cut.selected)); }' > crate/uses/src/main.rs
    got=$(cd crate/uses && CHOUGHBELL_LIBRARY=$room/stage/opt/chough/lib cargo run -q --offline 2>&1) || :
    [ "$got" = 'Ok(1)' ] || fault 'the crate and the installed library' "$(echo "$got" | tail -n 3 | tr '\n' '~')"
    ran=$((ran + 1))
    got=$(cd crate/uses && CHOUGHBELL_LIBRARY=$room/nowhere cargo run -q --offline 2>&1) || :
    echo "$got" | grep -q "missing: the library, as one of $room/nowhere/libexported.a, " || fault 'no library' "$(echo "$got" | tail -n 3)"
    rm -rf crate
fi
put uninstall DESTDIR="$room/stage" PREFIX=/opt/chough
left=$(find stage -type f)
[ -z "$left" ] || fault 'make uninstall' "left $left"


# What is newer than the command makes it be built again: the crate's own files too, and the proofs.
ran=$((ran + 2))
touch -d 1970-01-02 built
put changed BUILT="$room/built"
for file in host/Cargo.toml host/build.rs host/src/main.rs host/src/page.css host/native.sh crates.txt crates/cutter/src/lib.rt; do
    grep -qx "$file" "$notes/printed" || fault 'make changed' "no $file"
done
touch -d 2100-01-01 built
put changed BUILT="$room/built"
[ ! -s "$notes/printed" ] || fault 'make changed' "$(cat "$notes/printed")"

# While the library is proved there is a line for each crate that is; a proof that fails shows all that was said. Here by a stand-in.
cat > prover <<'END'
#!/bin/sh
checked() { printf '%s\n' "fn $1::is: proved" "library xml: modules loaded=2" "crate $1: modules loaded=9" "logic=$2"; }
checked utf8 proved
[ "${1##*/}" != fails ] || { checked points not-proved && exit 1; }
checked points proved
echo > "$1/libexported.a"
END
chmod 755 prover
ran=$((ran + 2))
put library NATIVE="$room/proving" MAKE_LIBRARY="$room/prover"
[ "$(tr '\n' ' ' < "$notes/printed")" = 'utf8 proved points proved ' ] || fault 'lines while proving' "$(cat "$notes/printed")"
! MAKEFLAGS='' make -s -C "$root" library NATIVE="$room/fails" MAKE_LIBRARY="$room/prover" > "$notes/printed" 2>&1 ||
    fault 'a proof that fails' 'status'
grep -q '^fn points::is: proved$' "$notes/printed" || fault 'a proof that fails' "$(cat "$notes/printed")"

# The package: put into a root of its own and taken out again, which leaves nothing there but what dpkg notes.
if [ -z "$run" ] && command -v dpkg-deb > "$notes/found" && [ "$(id -u)" = 0 ]; then
    ran=$((ran + 3))
    put deb DEB="$room/deb"
    package=$(echo deb/choughbell_*.deb)
    [ "$package" = "deb/choughbell_0.4.0_$(dpkg --print-architecture).deb" ] || fault 'make deb' "$package"
    [ "$(ls deb)" = "$(basename "$package")" ] || fault 'make deb' "$(ls deb)"
    mkdir -p alone/var/lib/dpkg/info alone/var/lib/dpkg/updates alone/var/lib/dpkg/triggers
    : > alone/var/lib/dpkg/status
    alone() {
        dpkg --root="$room/alone" --force-depends --log="$notes/dpkg" "$@" > "$notes/printed" 2>&1 ||
            fault "dpkg $1" "$(cat "$notes/printed")"
    }
    alone -i "$package"
    alone --verify choughbell
    [ ! -s "$notes/printed" ] || fault 'dpkg --verify' "$(cat "$notes/printed")"
    for file in bin/choughbell share/man/man1/choughbell.1.gz include/choughbell.h lib/libchoughbell.a lib/pkgconfig/choughbell.pc \
        share/bash-completion/completions/choughbell share/zsh/vendor-completions/_choughbell \
        share/fish/vendor_completions.d/choughbell.fish; do
        [ -f "alone/usr/$file" ] || fault 'the package' "no $file"
    done
    [ "$(alone/usr/bin/choughbell --version)" = 'choughbell 0.4.0' ] || fault 'the package' 'version'
    alone -r choughbell
    left=$(find alone -path alone/var -prune -o -type f -print -o -name '*choughbell*' -print)
    [ -z "$left" ] || fault 'dpkg -r' "left $left"
else
    echo 'choughbell: left out: the package, which is tried as root, where dpkg is'
fi

ran=$((ran + 1))
if command -v man > /dev/null; then
    LC_ALL=C.UTF-8 MANWIDTH=100 man --warnings -l "$root/host/man/choughbell.1" > "$notes/page" 2> "$notes/said" || :
    [ ! -s "$notes/said" ] || fault 'the man page' "$(head -n 3 "$notes/said" | tr '\n' '~')"
fi
