# The plain engine: document 01's examples by `cut --plain`, refusals, and what it does not print, the name tests.

# plain NAME LIST DOCUMENT CUT: the cut of a document; LIST has its lines as they stand, each with its line feed.
plain() {
    printf '%s' "$2" > plain.lst
    printf '%s' "$3" > plain.xml
    prints "$4"
    try "plain: $1" 0 cut -q --plain -l plain.lst plain.xml
}
lf='
'
plain 'row a' '' '<g/>' '<g></g>'
plain 'row b' "//v$lf" '<g><p><v/></p></g>' '<g><p><v></v></p></g>'
plain 'row c' "/v$lf" '<g><p><v/></p></g>' '<g></g>'
plain 'row d' "//a/b$lf" '<a><c/><b/></a>' '<a><b></b></a>'
plain 'row e' "//a/a/b$lf" '<a><a><a><b/></a></a></a>' '<a><a><a><b></b></a></a></a>'
plain 'row f' "//n #$lf" '<g><v k="1"><n>Aar</n></v></g>' '<g><v><n>Aar</n></v></g>'
plain 'row g' "//v$lf" '<g><v k="1"><n>Aar</n></v></g>' '<g><v k="1"></v></g>'
plain 'row h' "//v #$lf//n$lf" '<g><v><n/></v></g>' '<g><v><n/></v></g>'
plain 'self and descendant-or-self' "/g/self::g/p/descendant-or-self::v$lf" '<g><p><v/></p></g>' '<g><p><v></v></p></g>'
plain 'a test' "//v[@k=\"a b\"]$lf" '<g><v k="a
b"/><v k="a&#10;b"/></g>' '<g><v k="a
b"></v></g>'

# Its numbers are one line, and its JSON has no name tests.
lines 'kept 2 18'
try 'plain: numbers only' 0 cut --plain --count -l two.lst h.xml
lines 'kept 8 289'
try 'plain: the sample by the atlas' 0 cut --plain --count -l "$root/examples/atlas.lst" "$root/examples/gazetteer.xml"
lines 'kept 6 424'
try 'plain: the sample by the desk' 0 cut --plain --count -l "$root/examples/desk.lst" "$root/examples/gazetteer.xml"
lines '{"number":0,"second":21,"third":1,"meaning":"written","length":21,"selected":1}'
try 'plain: json' 0 cut --plain --count --json -l v.lst b.xml
lines '{"number":1,"second":0,"third":0,"meaning":"list over 8,192 bytes","file":"long.lst","hint":"it has 8,193"}'
try 'plain: json, refused' 1 cut --plain --count --json -l long.lst b.xml
try 'plain: to a file' 0 cut --plain -l v.lst b.xml -o plain.out
holds 'plain: to a file' plain.out '<g><p><v></v></p></g>'

# Refusals are told as ever.
says 'wrong.xml:1:4: 7: not well-formed: "</v>": <g> of line 1 is open (offset 3)'
try 'plain: refused' 7 cut --plain -l v.lst wrong.xml
{ repeat 64 '<g>' && repeat 64 '</g>'; } > levels.xml
lines 'kept 64 448'
printf '//g\n' > levels.lst
try 'plain: 64 levels' 0 cut --plain --count -l levels.lst levels.xml
repeat 65 '<g>' > levels.xml
try 'plain: 65 levels, quiet' 8 cut --plain --quiet -l levels.lst levels.xml
wrong 'plain and check' 'check takes no --plain' check --plain b.xml
wrong 'plain and explain' 'explain takes no --plain' explain --plain 7
wrong 'a value for plain' '--plain takes no value' cut --plain=yes -l v.lst b.xml

# The document that docs/TEACH.md walks through, and the same with another end tag.
teach="$root/examples/teach"
prints '<g><p><v k="3"><n>x</n></v></p></g>'
try 'plain: TEACH.md' 0 cut --plain -l "$teach.lst" "$teach.xml"
lines 'kept 2 35'
try 'plain: the numbers of TEACH.md' 0 cut --plain --count -l "$teach.lst" "$teach.xml"
sed 's|</v>|</w>|' "$teach.xml" > taught.xml
says 'taught.xml:1:39: 7: not well-formed: "</w>": <v> of line 1 is open (offset 38)'
try 'plain: the fault of TEACH.md' 7 cut --plain -l "$teach.lst" taught.xml
