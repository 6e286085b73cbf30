# Answers 5 to 8 and 10, with the place and what is said of it. Answer 9 can't be reached by the command, whose buffer always suffices: it
# is tried by the C example in around.sh and by the tests of the crate.

# refused NAME NUMBER DOCUMENT LINE: a document, its bytes as printf has them, and what follows its name in the message.
refused() {
    # shellcheck disable=SC2059
    printf "$3" > master.xml
    says "master.xml:$4"
    try "$1" "$2" check master.xml
    says "master.xml:$4"
    try "$1, under cut" "$2" cut -l v.lst master.xml
}
try 'a sound document' 0 check b.xml
input=b.xml
try 'a sound document on standard input' 0 check

# 5
refused 'a byte that is not UTF-8' 5 '<g>\n\377</g>' '2:1: 5: not a character: "\xFF": FF is not UTF-8 (offset 4)'
refused 'ISO 8859-1' 5 '<g>\n  Pr\351s</g>' '2:5: 5: not a character: "\xE9s": E9 is not UTF-8 (offset 8)'
refused 'U+FFFE' 5 '<g>\357\277\276</g>' '1:4: 5: not a character: "\u{FFFE}": U+FFFE is no character of XML (offset 3)'
refused 'a control' 5 '<g>a\001</g>' '1:5: 5: not a character: "\u{1}": U+0001 is no character of XML (offset 4)'
refused 'cut off' 5 '<g/>\342\202' '1:5: 5: not a character: "\xE2\x82": the end cuts E2 82 off (offset 4)'
refused 'UTF-16' 5 '\377\376<\000' \
    '1:1: 5: not a character: "\xFF\xFE": this seems to be UTF-16; a document is in UTF-8 (offset 0)'

# 6
refused 'a type' 6 '<?xml version="1.0"?>\n<!DOCTYPE g>\n<g/>' \
    '2:1: 6: document type: "<!DOCTYPE g>": documents with a type are not taken (offset 22)'

# 7
refused 'an end tag' 7 '<g>\n <v>\n</g>' '3:1: 7: not well-formed: "</g>": <v> of line 2 is open (offset 9)'
refused 'open at the end' 7 '<g>\n<v/>\n' '3:1: 7: not well-formed: at the end: <g> of line 1 is open (offset 9)'
refused 'empty' 7 '' '1:1: 7: not well-formed: at the end: there is no root (offset 0)'
refused 'no root' 7 '<!-- <g> -->\n' '2:1: 7: not well-formed: at the end: there is no root (offset 13)'
refused 'a second root' 7 '<g/><h/>' '1:5: 7: not well-formed: "<h/>": the root is closed, and there is only one (offset 4)'
refused 'text outside' 7 '<g/>\nend\n' \
    '1:5: 7: not well-formed: "\nend\n": outside the root stand only comments, instructions and white space, at 2:1 (offset 4)'
refused 'a reference' 7 '<g>\303\251 &nbsp; </g>' \
    "1:6: 7: not well-formed: \"&nbsp;\": a reference is &lt; &gt; &amp; &apos; &quot; or a character's number, as &#233; (offset 6)"
refused 'a sign in text' 7 '<g>1 < 2</g>' '1:6: 7: not well-formed: "< 2</g>": a < that begins no tag is written &lt; (offset 5)'
refused 'a declaration below' 7 '\n<?xml version="1.0"?><g/>' \
    '2:1: 7: not well-formed: "<?xml version="1.0"?>": the declaration stands at the very front (offset 1)'
# tag NAME DOCUMENT PLACE HINT: a tag at the front, with the place of the fault in it.
tag() { refused "$1" 7 "$2" "1:1: 7: not well-formed: \"$(echo "${2%%>*}" | sed 's/\n.*//')>\": $4, at $3 (offset 0)"; }
tag 'an attribute twice' '<g a="1" a="2"/>' 1:10 'the attribute a stands twice'
tag 'no blank between attributes' '<g a="1"b="2"/>' 1:9 'a blank stands before each attribute'
tag 'a sign in a value' '<g a="1 & 2"/>' 1:9 'a & that begins no reference is written &amp;'
tag 'an entity in a value' '<g a="&nbsp;"/>' 1:7 "a reference is &lt; &gt; &amp; &apos; &quot; or a character's number, as &#233;"
tag 'no quotes' '<g a=1/>' 1:6 'a value stands in quotes'
refused 'a digit first' 7 '<g><1a/></g>' \
    "1:4: 7: not well-formed: \"<1a/>\": a name can't begin with 1; a < that begins no tag is written &lt; (offset 3)"
refused 'a sign in text, alone' 7 '<g>1 & 2</g>' \
    '1:6: 7: not well-formed: "& 2</g>": a & that begins no reference is written &amp; (offset 5)'
refused 'two ends three lines below' 7 '<g>one\ntwo\nthree\n four ]]></g>' \
    '1:4: 7: not well-formed: "one\ntwo\nthree\n four ]]>": text has no ]]>, at 4:7 (offset 3)'
refused 'after three bytes' 7 '\357\273\277</g>' '1:1: 7: not well-formed: "</g>": no element is open (offset 3)'
refused 'a long item' 7 "<g>$(repeat 40 a)]]></g>" \
    "1:4: 7: not well-formed: \"$(repeat 40 a)...\": text has no ]]>, at 1:44 (offset 3)"
try 'refused, quiet' 7 check --quiet master.xml
says 'standard input:1:4: 7: not well-formed: "</v>": <g> of line 1 is open (offset 3)'
printf '<g></v>' > in.xml
input=in.xml
try 'refused on standard input' 7 check -

# 8
printf '%s%s' "$(repeat 64 '<g>')" "$(repeat 64 '</g>')" > deep.xml
try '64 deep' 0 check deep.xml
refused '65 deep' 8 "$(repeat 64 '<g>')<v/>" '1:193: 8: over a size: "<v/>": it is 65 deep; elements stand at most 64 deep (offset 192)'
refused 'a name of 256 bytes' 8 "<g>\n<$(repeat 256 n)/></g>" \
    "2:1: 8: over a size: \"<$(repeat 39 n)...\": a name of 256 bytes; names have at most 255, at 2:2 (offset 4)"
attributes=$(awk 'BEGIN { for (i = 1; i < 34; i++) printf " a%d=\"\"", i }')
refused '33 attributes' 8 "<g$attributes/>" \
    "1:1: 8: over a size: \"$(echo "<g$attributes" | cut -c 1-40)...\": it has 33 attributes; \
a tag has at most 32, at 1:$((3 + 9 * 6 + 23 * 7 + 1)) (offset 0)"

# 10
# encoded NAME DOCUMENT THERE SAID: a declaration at the front that names another encoding.
encoded() {
    refused "$1" 10 "$2" "1:1: 10: another encoding: \"$3\": the declaration says \"$4\"; \
xmllint --encode UTF-8 converts the file and its declaration (offset 0)"
}
latin='<?xml version="1.0" encoding="ISO-8859-1"?>'
encoded 'ISO 8859-1, declared' "$latin\n<g>Pr\351s</g>" '<?xml version="1.0" encoding="ISO-8859-1...' ISO-8859-1
encoded 'declared, but it reads as UTF-8' "$latin\n<g>Pr\303\251s</g>" '<?xml version="1.0" encoding="ISO-8859-1...' ISO-8859-1
encoded 'UTF8, nothing behind it' "<?xml version='1.0' encoding='UTF8'?>" "<?xml version='1.0' encoding='UTF8'?>" UTF8
encoded 'two lines, and a type' "<?xml version='1.1'\n encoding = 'x' standalone='no' ?><!DOCTYPE g>" \
    "<?xml version='1.1'\n encoding = 'x' sta..." x
encoded 'a long name' "<?xml version='1.0' encoding='$(repeat 50 x)'?><g/>" \
    "<?xml version='1.0' encoding='$(repeat 10 x)..." "$(repeat 40 x)..."
refused 'behind three bytes' 10 "\357\273\277<?xml version='1.0' encoding='UTF-16'?><g/>" \
    "1:1: 10: another encoding: \"<?xml version='1.0' encoding='UTF-16'?>\": the declaration says \"UTF-16\", but \
a byte order mark of UTF-8 stands before it: write UTF-8 there (offset 3)"
try 'another encoding, quiet' 10 check --quiet master.xml
refused 'a bad byte in the declaration' 5 '<?xml version="1.0" encoding="ISO\351"?><g/>' \
    '1:34: 5: not a character: "\xE9"?>": E9 is not UTF-8 (offset 33)'
declaration='a declaration is <?xml version="1.0"?>, after the version perhaps encoding="UTF-8" and standalone="yes"'
refused 'a declaration without its version' 7 '<?xml encoding="ISO-8859-1"?><g/>' \
    "1:1: 7: not well-formed: \"<?xml encoding=\"ISO-8859-1\"?>\": $declaration (offset 0)"
refused 'another encoding below' 7 '\n<?xml version="1.0" encoding="x"?><g/>' \
    '2:1: 7: not well-formed: "<?xml version="1.0" encoding="x"?>": the declaration stands at the very front (offset 1)'
for name in UTF-8 utf-8 Utf-8; do
    printf '<?xml version="1.0" encoding="%s"?><g/>' "$name" > utf.xml
    try "$name" 0 check utf.xml
done

# What the hint says is so: xmllint converts both, iconv the bytes alone.
printf '/g #\n' > whole.lst
printf '%s\n<g>Pr\351s</g>\n' "$latin" > latin.xml
iconv -f ISO-8859-1 -t UTF-8 latin.xml > half.xml
try 'converted by iconv' 10 check --quiet half.xml
if command -v xmllint > /dev/null; then
    xmllint --encode UTF-8 latin.xml > utf.xml
    prints '<g>Prés</g>'
    try 'converted by xmllint' 0 cut -l whole.lst utf.xml
fi

# The list is judged first, then the document; a bad character comes before what is at fault above it.
printf 'v\n' > in.lst
says 'in.lst:1: 2: malformed line: "v": a line begins with / or //' '    v' '    ^'
try 'both at fault' 2 cut -l in.lst master.xml
says 'in.lst:1: 2: malformed line: "v": a line begins with / or //' '    v' '    ^'
try 'both at fault, by its encoding' 2 cut -l in.lst latin.xml
refused 'two faults' 5 '<g></v>\377' '1:8: 5: not a character: "\xFF": FF is not UTF-8 (offset 7)'
