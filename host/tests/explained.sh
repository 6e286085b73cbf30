# Each command that `explain` names is run as it stands, on files of the names that it has, and what it makes is what the text says.
mkdir -p explained/bin
cat > explained/bin/choughbell <<END
#!/bin/sh
exec $run '$program' "\$@"
END
chmod 755 explained/bin/choughbell

# follow NUMBER: the commands in the text on a number, in the folder. What they print and say is kept in `followed`.
follow() {
    ran=$((ran + 1))
    start explain "$1" | sed -n 's/^  //p' > "$notes/commands"
    [ -s "$notes/commands" ] || fault "explain $1" 'no command'
    (cd explained && PATH=$PWD/bin:$PATH && sh -eu "$notes/commands") > followed 2>&1 || fault "explain $1" "$(tr '\n' '~' < followed)"
}

# 3: the halves of a list of 33 lines, and one that covers both.
{ repeat 32 '/g/p/v
' && echo '//v/w'; } > explained/long.lst
try 'explain 3: the whole list' 3 cut -q -l explained/long.lst b.xml
printf '//v\n//w\n' > explained/short.lst
follow 3
printf 'yes\nyes\n' | cmp -s - followed || fault 'explain 3' "$(cat followed)"
[ "$(wc -l < explained/half1.lst) $(cat explained/half2.lst)" = '32 //v/w' ] || fault 'explain 3' 'halves'

# 4: the cut of the parts, joined, is the cut of the whole, by lists that begin at the root and others, and where the root is kept.
cat > explained/master.xml <<'END'
<g> <!-- a -->
<p k="1"><v>1</v ></p>
<q/> text <p><v/></p>
<p><w><v>3</v></w></p>
<v/>
</g>
END
for path in '/g/p/v' '//v #' '/g/p[@k="1"]' '//w' '/g #' '/g' '/p/v' '/*/*'; do
    echo "$path" > explained/short.lst
    follow 4
    try "explain 4: $path" 0 cut -q -l explained/short.lst explained/master.xml -o explained/whole.xml
    same "explain 4: $path" explained/whole.xml explained/cut.xml
done
# A split inside a child of the root is refused.
{ head -n 1 explained/master.xml && echo '<p>' && tail -n +2 explained/master.xml | sed 's,^</g>,</p></g>,'; } > explained/split.xml
{ head -n 3 explained/split.xml && printf '</g>'; } > explained/part1.xml
{ printf '<g>' && tail -n +4 explained/split.xml; } > explained/part2.xml
for part in 1 2; do try "explain 4: a split elsewhere, part $part" 7 check -q explained/part$part.xml; done

# 13
follow 13
try 'explain 13' 0 unpack explained/short.bin -o explained/back.lst
same 'explain 13' explained/short.lst explained/back.lst

# 73
echo '<g>old</g>' > explained/mounted.xml
follow 73
same 'explain 73' explained/whole.xml explained/mounted.xml

# taken NUMBER TEXT: what a conversion makes is taken, and has this text in its element v.
taken() {
    printf '//v #\n' > explained/v.lst
    prints "<g><v$2</v></g>"
    try "explain $1: the converted file" 0 cut -l explained/v.lst explained/new.xml
}
if command -v xmllint > "$notes/found" && command -v iconv > "$notes/found"; then
    # 5: UTF-16 with its declaration, then another encoding without one. The second takes the place of the first.
    printf '<?xml version="1.0" encoding="UTF-16"?><g><v>\303\251</v></g>' | iconv -f UTF-8 -t UTF-16 > explained/utf16.xml
    printf '<g><v>\351 \200</v></g>' > explained/old.xml
    try 'explain 5: UTF-16' 5 check -q explained/utf16.xml
    try 'explain 5: another encoding' 5 check -q explained/old.xml
    follow 5
    taken 5 '>é €'
    (cd explained && xmllint --encode UTF-8 utf16.xml > new.xml)
    taken 5 '>é'
    # 6: entities and defaults are written out. What the text warns of is so: a file that an entity names is read into the document.
    printf '<!DOCTYPE g [<!ENTITY e "&#233;"><!ATTLIST v k CDATA "d">]><g><v>&e;</v></g>' > explained/typed.xml
    try 'explain 6: a type' 6 check -q explained/typed.xml
    follow 6
    taken 6 ' k="d">é'
    printf secret > explained/other.txt
    printf '<!DOCTYPE g [<!ENTITY e SYSTEM "other.txt">]><g><v>&e;</v></g>' > explained/typed.xml
    follow 6
    taken 6 '>secret'
    # 10
    printf '<?xml version="1.0" encoding="ISO-8859-1"?><g><v>\351</v></g>' > explained/latin.xml
    try 'explain 10: another encoding' 10 check -q explained/latin.xml
    follow 10
    taken 10 '>é'
else
    echo 'choughbell: left out: the conversions that explain 5, 6 and 10 name, since xmllint or iconv is missing'
fi

# README's first cut and its page, as they stand there.
ran=$((ran + 2))
ln -sfn "$root/examples" explained/examples
# section NAME: the commands of a section of README, run in order. What they say is kept in `followed`.
section() {
    sed -n "/^## $1\$/,/^## /s/^    \(printf .*\|choughbell [a-z]* -l .*\)/\1/p" "$root/README.md" > "$notes/commands"
    [ "$(wc -l < "$notes/commands")" = 2 ] || fault "README: $1" "$(cat "$notes/commands")"
    (cd explained && PATH=$PWD/bin:$PATH && sh -eu "$notes/commands") > followed 2>&1 || fault "README: $1" "$(tr '\n' '~' < followed)"
}
section 'A first cut'
[ ! -s followed ] || fault 'README: A first cut' "$(cat followed)"
grep -q '^<gazetteer><country>.*<commune id="c1">.*<lake id="l1" ><name>' explained/first.xml || fault 'README: A first cut' 'another cut'
section 'A page to look at'
[ "$(cat followed)" = 'page.lst:4: "//river" selects nothing' ] || fault 'README: A page to look at' "$(cat followed)"
grep -q '<title>examples/gazetteer.xml by page.lst</title>' explained/page.html || fault 'README: A page to look at' 'no page'
