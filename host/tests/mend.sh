# Mending: what is written, and the line that says what was kept, lost and added; refusals; options. Document 02's own example first.

# mended NAME DOCUMENT RESULT LINE: a run that writes the result and says the line. The document is in the form of printf.
mended() {
    # shellcheck disable=SC2059
    printf "$2" > half.xml
    # shellcheck disable=SC2059
    printf "$3" > "$notes/prints"
    says "half.xml: $4"
    try "mend: $1" 0 mend half.xml
}
mended 'half a name' '<g><n>Aar' '<g><n></n></g>' 'kept 6 of 9 bytes, lost 3 from line 1 on, added 2 end tags'
mended 'a sound document' '<g><n>Aar</n></g>\n' '<g><n>Aar</n></g>\n' 'whole: kept all 18 bytes, added no end tag'
mended 'a sound document behind three bytes' '\357\273\277<g/>' '\357\273\277<g/>' 'whole: kept all 7 bytes, added no end tag'
mended 'half a tag' '<g>\n<n>Aar</n>\n<n k="1' '<g>\n<n>Aar</n>\n</g>' 'kept 15 of 22 bytes, lost 7 from line 3 on, added 1 end tag'
mended 'half a comment' '<g>a<!-- b -' '<g>a</g>' 'kept 4 of 12 bytes, lost 8 from line 1 on, added 1 end tag'
mended 'half a section' '<g>a<![CDATA[b]' '<g>a</g>' 'kept 4 of 15 bytes, lost 11 from line 1 on, added 1 end tag'
mended 'half a character' '<g><n/>\303' '<g><n/></g>' 'kept 7 of 8 bytes, lost 1 from line 1 on, added 1 end tag'
mended 'a bad byte in the middle' '<g>\n<n>A\377ar</n>\n</g>' '<g>\n<n></n></g>' \
    'kept 7 of 20 bytes, lost 13 from line 2 on, added 2 end tags'
mended 'between items' '<g><n/>' '<g><n/></g>' 'kept all 7 bytes, added 1 end tag'
mended 'a wrong end tag' '<g><n>a</g>' '<g><n>a</n></g>' 'kept 7 of 11 bytes, lost 4 from line 1 on, added 2 end tags'
mended 'after the root' '<g/>\nx' '<g/>' 'kept 4 of 6 bytes, lost 2 from line 1 on, added no end tag'
mended 'a second root' '<g/>\n<h/>' '<g/>\n' 'kept 5 of 9 bytes, lost 4 from line 2 on, added no end tag'
mended 'a document type after the root' '<g/><!DOCTYPE g>' '<g/>' 'kept 4 of 16 bytes, lost 12 from line 1 on, added no end tag'
mended 'level 65' "$(repeat 65 '<g>')" "$(repeat 64 '<g>')$(repeat 64 '</g>')" \
    'kept 192 of 195 bytes, lost 3 from line 1 on, added 64 end tags'

# A result is taken by the filter, and mended again it stays as it is.
printf '<g><p><v/><p' > half.xml
says 'half.xml: kept 10 of 12 bytes, lost 2 from line 1 on, added 2 end tags'
try 'mend: to a file' 0 mend half.xml -o whole.xml
holds 'mend: to a file' whole.xml '<g><p><v/></p></g>'
prints '<g><p><v></v></p></g>'
try 'mend: the result is cut' 0 cut -l v.lst whole.xml
says 'whole.xml: whole: kept all 18 bytes, added no end tag'
try 'mend: the result again' 0 mend whole.xml --output=whole.xml
holds 'mend: the result again' whole.xml '<g><p><v/></p></g>'
input=half.xml
prints '<g><p><v/></p></g>'
says 'standard input: kept 10 of 12 bytes, lost 2 from line 1 on, added 2 end tags'
try 'mend: the standard input' 0 mend
prints '<g><p><v/></p></g>'
try 'mend: quiet' 0 mend -q half.xml

# The document is within the size and the result is not: it is written, and the filter refuses it.
{ printf '<g>' && head -c 16777213 /dev/zero | tr '\0' x && printf '<'; } | head -c 16777216 > full.xml
says 'full.xml: kept 3 of 16777216 bytes, lost 16777213 from line 1 on, added 1 end tag'
try 'mend: a text of 16 MiB' 0 mend full.xml -o whole.xml
holds 'mend: a text of 16 MiB' whole.xml '<g></g>'
{ printf '<g>' && head -c 16777212 /dev/zero | tr '\0' x && printf '<'; } > full.xml
says 'full.xml: kept 16777215 of 16777216 bytes, lost 1 from line 1 on, added 1 end tag'
try 'mend: a result over the size' 0 mend full.xml -o whole.xml
[ "$(wc -c < whole.xml)" = 16777219 ] || fault 'mend: a result over the size' 'another length'
says 'whole.xml: 4: document over 16,777,216 bytes: it has 16,777,219'
try 'mend: a result over the size is refused' 4 mend whole.xml
says '/dev/zero: 4: document over 16,777,216 bytes'
try 'mend: a document without end' 4 mend /dev/zero
rm full.xml whole.xml

# rootless NAME DOCUMENT PLACE THERE OFFSET: 12, and no file is made.
rootless() {
    # shellcheck disable=SC2059
    printf "$2" > half.xml
    says "half.xml:$3: 12: no root tag kept: $4: no start tag before it is whole, so nothing can be kept (offset $5)"
    try "mend: $1" 12 mend half.xml -o none.xml
    [ ! -e none.xml ] || fault "mend: $1" 'a file is made'
}
rootless 'no bytes' '' 1:1 'at the end' 0
rootless 'half a root tag' '<?p?>\n<g k="1' 2:1 '"<g k="1"' 6
rootless 'only comments' '<!-- a -->' 1:11 'at the end' 10
rootless 'a document type' '<!DOCTYPE g><g/>' 1:1 '"<!DOCTYPE g>"' 0
rootless 'a bad byte before the root' '<?p?>\377<g/>' 1:6 '"\xFF"' 5
rootless 'three bytes alone' '\357\273\277' 1:1 'at the end' 3

printf '<?xml version="1.0" encoding="ISO-8859-1"?><g>\351' > half.xml
says 'half.xml:1:1: 10: another encoding: "<?xml version="1.0" encoding="ISO-8859-1...": the declaration says "ISO-8859-1";'\
' xmllint --encode UTF-8 converts the file and its declaration (offset 0)'
try 'mend: another encoding' 10 mend half.xml
says 'choughbell: none.xml: No such file or directory'
try 'mend: a missing document' 66 mend none.xml
try 'mend: refused, quiet' 12 mend --quiet none.lst

# --json: on the standard error where the document goes to the standard output.
printf '<g><n>Aar' > half.xml
prints '<g><n></n></g>'
says '{"number":0,"second":14,"kept":6,"added":2,"meaning":"mended","length":14}'
try 'mend: json' 0 mend --json half.xml
lines '{"number":0,"second":14,"kept":6,"added":2,"meaning":"mended","length":14}'
try 'mend: json, to a file' 0 mend --json half.xml -o whole.xml
holds 'mend: json, to a file' whole.xml '<g><n></n></g>'
printf '<g' > half.xml
place='"file":"half.xml","offset":0,"line":1,"column":1,"there":"<g"'
says '{"number":12,"second":0,"kept":0,"added":0,"meaning":"no root tag kept",'"$place"\
',"hint":"no start tag before it is whole, so nothing can be kept"}'
try 'mend: json, refused' 12 mend --json half.xml

usage 'mend takes no --list'
try 'mend: a list' 64 mend -l v.lst half.xml
usage 'mend takes one document, and b.xml is a second'
try 'mend: two documents' 64 mend half.xml b.xml
