# Answers on lists: 0 as document 01's examples have it, and 1 to 3 with what is said of the line.
printf '//v\n' > v.lst
printf '<g><p><v/></p></g>' > b.xml
: > none.lst

prints '<g><p><v></v></p></g>'
try 'a cut' 0 cut -l v.lst b.xml
prints '<g></g>'
try 'an empty list' 0 cut -l none.lst b.xml
prints '<g></g>'
try 'no list' 0 cut -l /dev/null b.xml
printf '//v #\n//n\n' > two.lst
printf '<g><v><n/></v></g>' > h.xml
prints '<g><v><n/></v></g>'
try 'a marked line' 0 cut -l two.lst h.xml
lines 'kept 2 18' 'name tests 6'
try 'numbers only' 0 cut --count -l two.lst h.xml
try 'numbers only, quiet' 0 cut --count --quiet -l v.lst b.xml
prints '<g><p><v></v></p></g>'
try 'a cut, quiet' 0 cut --quiet -l v.lst b.xml

# Self and descendant-or-self steps, and names with two colons side by side.
printf '/g/self::g/p/descendant-or-self::v\n' > axes.lst
prints '<g><p><v></v></p></g>'
try 'self and descendant-or-self' 0 cut -l axes.lst b.xml
printf '//*/self::v #\n' > axes.lst
prints '<g><p><v/></p></g>'
try 'self, marked' 0 cut -l axes.lst b.xml
printf '/descendant-or-self::*\n' > axes.lst
lines 'kept 3 21' 'name tests 3'
try 'descendant-or-self first' 0 cut --count -l axes.lst b.xml
printf '/self::g\n' > axes.lst
lines 'kept 0 7' 'name tests 0'
says 'axes.lst:1: "/self::g" selects nothing'
try 'self first' 0 cut --count -l axes.lst b.xml
printf '/g/*\n/g/self::p\n' > axes.lst
printf '<g><a::b/><self::p><:p/></self::p></g>' > colons.xml
prints '<g><a::b></a::b><self::p></self::p></g>'
says 'axes.lst:2: "/g/self::p" selects nothing'
try 'names with two colons in a document' 0 cut -l axes.lst colons.xml

# Tests of an attribute behind the last step.
cat > places.xml << 'END'
<atlas><place type="village">Aar</place><place type='vill&#97;ge' n="2"/><place type="town"/><place/><lake type="deep
water"/></atlas>
END
printf '//place[@type="village"]\n' > tests.lst
prints '<atlas><place type="village"></place><place type='"'vill&#97;ge'"' n="2"></place></atlas>'
try 'a test of an attribute' 0 cut -l tests.lst places.xml
printf '//place[@type="village"] #\n//*[@type="deep water"]\n' > tests.lst
prints '<atlas><place type="village">Aar</place><place type='"'vill&#97;ge'"' n="2"/><lake type="deep
water"></lake></atlas>'
try 'two tests, one marked' 0 cut -l tests.lst places.xml
printf '//place[@type=""]\n//place[@Type="town"]\n/atlas/self::*[@n="2"]\n' > tests.lst
lines 'kept 0 15' 'name tests 14'
says 'tests.lst:1: "//place[@type=""]" selects nothing' 'tests.lst:2: "//place[@Type="town"]" selects nothing' \
    'tests.lst:3: "/atlas/self::*[@n="2"]" selects nothing'
try 'tests that none passes' 0 cut --count -l tests.lst places.xml

# Name tests, as sums: for each step how many elements it is tried at, over the whole document.
# tests NAME KEPT NUMBER DOCUMENT LINES..: what --count prints by a list of these lines.
tests() {
    name=$1 kept=$2
    lines "kept $2" "name tests $3"
    document=$4
    shift 4
    printf '%s\n' "$@" > count.lst
    # A list that selects nothing is told; here it has one line.
    [ "${kept% *}" != 0 ] || says "count.lst:1: \"$(cat count.lst)\" selects nothing"
    try "name tests: $name" 0 cut --count -l count.lst "$document"
}
printf '<g><p><v/></p><q><v><w/></v></q></g>' > six.xml
tests 'a path from the root' '2 21' $((1 + 2)) six.xml '/g/*'
tests 'a name that fits nowhere' '0 7' $((1 + 2)) six.xml '/g/x'
tests 'no way past the first step' '0 7' 1 six.xml '/x/*/*'
tests 'a child of any v' '1 28' $((6 + 1)) six.xml '//v/w'
tests 'the same line three times, once marked' '1 25' $((3 * (6 + 1))) six.xml '//v/w' '//v/w' '//v/w #'
tests 'inside a kept entry' '2 25' $((6 + 6 + 1)) six.xml '//q #' '//v/w'
tests 'the test of an attribute is none' '0 7' $((6 + 1)) six.xml '//v/w[@k="x"]'
tests 'self, tried where the step before ends' '2 35' $((6 + 6)) six.xml '//*/self::v'
tests 'descendant-or-self, tried there and below' '1 28' $((6 + 3)) six.xml '//v/descendant-or-self::w'
: > count.lst
lines 'kept 0 7' 'name tests 0'
try 'name tests: an empty list' 0 cut --count -l count.lst six.xml

# The sample gazetteer has 26 elements, 7 of them children of its provinces and 9 of its communes.
lines 'kept 8 289' "name tests $((4 * 26 + 9))"
try 'the sample by the atlas' 0 cut --count -l "$root/examples/atlas.lst" "$root/examples/gazetteer.xml"
lines 'kept 6 424' "name tests $((4 * 26 + 7 + 9))"
try 'the sample by the desk' 0 cut --count -l "$root/examples/desk.lst" "$root/examples/gazetteer.xml"
tests "the man page's example" '6 273' $((3 * 26 + 9)) "$root/examples/gazetteer.xml" '//commune' '//commune/hamlet' '//lake #'

# A call that is refused shows no name tests.
printf '<g></v>' > wrong.xml
says 'wrong.xml:1:4: 7: not well-formed: "</v>": <g> of line 1 is open (offset 3)'
try 'numbers only, refused' 7 cut --count -l v.lst wrong.xml

# 1
repeat 8193 / > long.lst
says 'long.lst: 1: list over 8,192 bytes: it has 8,193'
try 'list of 8,193 bytes' 1 cut -l long.lst b.xml
input=long.lst
says 'standard input: 1: list over 8,192 bytes: it has 8,193'
try 'long list on standard input' 1 cut -l - b.xml
says '/dev/zero: 1: list over 8,192 bytes'
try 'list without end' 1 cut -l /dev/zero b.xml
repeat 32 "/$(repeat 254 a)
" > full.lst
prints '<g></g>'
try 'list of 8,192 bytes' 0 cut -q -l full.lst b.xml

# malformed NAME LINE HINT CARET: the third line of a list that is malformed. The caret stands after some blanks.
malformed() {
    printf '/a\n//b #\n%s\n/c\n' "$2" > atlas.lst
    says "atlas.lst:3: 2: malformed line: \"$2\": $3" "    $2" "    $4"
    try "$1" 2 cut -l atlas.lst b.xml
}
step='a step is /, //, /self:: or /descendant-or-self::, then * or a name'
malformed 'blank' '/a b' "$step" '  ^'
malformed 'empty line' '' 'an empty line' '^'
malformed 'no slash' 'v' 'a line begins with / or //' '^'
malformed 'three slashes' '/a///b' 'at most two slashes stand before a name' '    ^'
malformed 'no space before #' '/a#' 'one space and # mark a line, at its end' '  ^'
malformed 'two spaces before #' '/a  #' 'one space and # mark a line, at its end' '  ^'
malformed 'blank after #' '/a # ' '# ends the line, and a list has no comments' '    ^'
malformed 'a comment after #' '//v # lakes' '# ends the line, and a list has no comments' '     ^'
malformed 'digit' '/a/1b' "a name can't begin with 1" '   ^'
malformed 'attribute' '/a/@id' \
    'a path selects elements, no attributes or functions; a test is [@name="value"], behind the last step' '   ^'
malformed 'comment' '# lakes' 'a list has no comments; one space and # mark a line, at its end' '^'
axes='the axes are self:: and descendant-or-self::, behind one slash, and no others'
malformed 'two slashes before an axis' '//self::p' "$axes" ' ^'
malformed 'an axis alone' '/a/self::' 'behind an axis stands * or a name' '         ^'
malformed 'the child axis' '/child::p' "child:: is written / here; $axes" ' ^'
malformed 'the descendant axis' '/a/descendant::p' "descendant:: is written // here; $axes" '   ^'
malformed 'two colons in a name' '/a::b' "a name in a list has no ::; $axes" '  ^'
malformed 'two axes' '/self::self::p #' "a name in a list has no ::; $axes" '           ^'
malformed 'accents, composed' '/préf é' "$step" '     ^'
malformed 'accents, decomposed' "$(printf '/pre\314\201f e\314\201')" "$step" '     ^'

test='a test is [@name="value"]'
malformed 'a test on an earlier step' '/g[@k="x"]/v #' 'a test stands behind the last step alone' '  ^'
malformed 'two tests' '/g[@k="x"][@l="y"]' 'a path has one test alone' '          ^'
malformed 'a test and more' '/g[@k="x"]#' 'behind a test the line ends, or one space and # mark it' '          ^'
malformed 'a test without a name before it' '/g/[@k="x"]' 'before a test stands * or a name' '   ^'
blanks='no blanks stand before a test or in it, other than in its value'
malformed 'a blank before a test' '/g [@k="x"]' "$blanks; $test" '  ^'
malformed 'a blank in a test' '/g[@k = "x"]' "$blanks; $test" '     ^'
malformed 'single quotes' "/g[@k='x']" "a value stands in double quotes; $test" '      ^'
malformed 'no value' '/g[@k]' "a test asks for a value; $test" '     ^'
malformed 'any attribute' '/g[@*="x"]' "a test names its attribute, by no *; $test" '    ^'
malformed 'no @' '/g[k="x"]' "a test asks for an attribute and begins with [@; $test" '   ^'
malformed 'no quote at the end' '/g[@k="x]' "a value ends in a double quote; $test" '         ^'
malformed 'no bracket at the end' '/g[@k="x"' "a test ends in ]; $test" '         ^'
malformed 'a reference in a value' '/g[@k="é&lt;"]' 'a value in a list has no &, and no reference for it' '        ^'

printf '/g[@k="a\tb"]\n' > tab.lst
says 'tab.lst:1: 2: malformed line: "/g[@k="a\tb"]": U+0009 can'"'"'t stand in a value' '    /g[@k="a\tb"]' '            ^'
try 'a tab in a value' 2 cut -l tab.lst b.xml
printf '/a\r\n' > crlf.lst
says 'crlf.lst:1: 2: malformed line: "/a\r": a line ends in a line feed alone, without a carriage return' '    /a\r' '      ^'
try 'carriage return' 2 cut -l crlf.lst b.xml
malformed 'wide characters' '/日本 b' "$step" '     ^'
malformed 'marks over letters' "$(printf '/\327\251\326\270\327\201 b')" "$step" '  ^'
printf '/a #\r/b\r' > cr.lst
says 'cr.lst:1: 2: malformed line: "/a #\r/b\r": a line ends in a line feed; a carriage return stands in its place' '    /a #\r/b\r' \
    '        ^'
try 'carriage returns alone' 2 cut -l cr.lst b.xml
printf '\377\376/\000a\000\n\000' > utf16.lst
says 'utf16.lst:1: 2: malformed line: "\xFF\xFE/\u{0}a\u{0}": this seems to be UTF-16; a list is in UTF-8' \
    '    \xFF\xFE/\u{0}a\u{0}' '    ^'
try 'UTF-16' 2 cut -l utf16.lst b.xml
printf '/\000a\000\n\000' > utf16.lst
says 'utf16.lst:1: 2: malformed line: "/\u{0}a\u{0}": this seems to be UTF-16; a list is in UTF-8' '    /\u{0}a\u{0}' '    ^'
try 'UTF-16 without a mark' 2 cut -l utf16.lst b.xml
printf '/a\n/b' > open.lst
says 'open.lst:2: 2: malformed line: "/b": a line ends in a line feed' '    /b' '      ^'
try 'no line feed' 2 cut -l open.lst b.xml
printf '/a\303(\n' > bad.lst
says 'bad.lst:1: 2: malformed line: "/a\xC3(": not UTF-8: C3' '    /a\xC3(' '      ^'
try 'not UTF-8' 2 cut -l bad.lst b.xml
printf '\357\273\277/a\n' > bom.lst
says 'bom.lst:1: 2: malformed line: "\u{FEFF}/a": a list has no byte order mark' '    \u{FEFF}/a' '    ^'
try 'byte order mark' 2 cut -l bom.lst b.xml
printf '/a\0\n' > null.lst
says 'null.lst:1: 2: malformed line: "/a\u{0}": '"$step" '    /a\u{0}' '      ^'
try 'a null byte' 2 cut -l null.lst b.xml
printf '/%s b\n' "$(repeat 100 x)" > wide.lst
says "wide.lst:1: 2: malformed line: \"/$(repeat 39 x)...\": $step" \
    "    ...$(repeat 50 x) b" "       $(repeat 50 ' ')^"
try 'a long line' 2 cut -l wide.lst b.xml
try 'malformed, quiet' 2 cut -q -l atlas.lst b.xml
says 'standard input:1: 2: malformed line: "v": a line begins with / or //' '    v' '    ^'
printf 'v\n' > in.lst
input=in.lst
try 'malformed on standard input' 2 cut -l - b.xml

# 3
repeat 16 /a > steps.lst && echo >> steps.lst
prints '<g></g>'
try '16 steps' 0 cut -q -l steps.lst b.xml
{ echo /a && repeat 17 /a && echo; } > steps.lst
says "steps.lst:2: 3: line too large: \"$(repeat 17 /a)\": over 16 steps" "    $(repeat 17 /a)" "    $(repeat 32 ' ')^"
try '17 steps' 3 cut -l steps.lst b.xml
printf '//%s\n' "$(repeat 256 a)" > name.lst
says "name.lst:1: 3: line too large: \"//$(repeat 38 a)...\": a name over 255 bytes" "    //$(repeat 40 a | cut -c 1-40)..." '      ^'
try 'a name of 256 bytes' 3 cut -l name.lst b.xml
printf '/a/self::%s\n' "$(repeat 256 a)" > name.lst
says "name.lst:1: 3: line too large: \"/a/self::$(repeat 31 a)...\": a name over 255 bytes" \
    "    /a/self::$(repeat 40 a)..." '             ^'
try 'a name of 256 bytes behind an axis' 3 cut -l name.lst b.xml
printf '/a/self::%s\n' "$(repeat 255 a)" > name.lst
prints '<g></g>'
try 'a name of 255 bytes behind an axis' 0 cut -q -l name.lst b.xml
printf '/a[@%s="x"]\n' "$(repeat 256 k)" > name.lst
says "name.lst:1: 3: line too large: \"/a[@$(repeat 36 k)...\": a name over 255 bytes" "    /a[@$(repeat 40 k)..." '        ^'
try 'an attribute of 256 bytes' 3 cut -l name.lst b.xml
printf '/a[@k="%s"] #\n' "$(repeat 128 é)" > value.lst
says "value.lst:1: 3: line too large: \"/a[@k=\"$(repeat 33 é)...\": a value over 255 bytes" "    /a[@k=\"$(repeat 40 é)..." \
    '           ^'
try 'a value of 256 bytes' 3 cut -l value.lst b.xml
printf '/a[@k="%s"] #\n' "$(repeat 255 x)" > value.lst
prints '<g></g>'
try 'a value of 255 bytes' 0 cut -q -l value.lst b.xml
repeat 33 '/a
' > many.lst
says 'many.lst:33: 3: line too large: "/a": line 33: a list has at most 32 lines' '    /a' '    ^'
try 'line 33' 3 cut -l many.lst b.xml
repeat 32 '/a
' > many.lst
prints '<g></g>'
try 'line 32' 0 cut -q -l many.lst b.xml

# Blanks that are none are shown and named: on a French keyboard the one before # is easily another.
printf '//v\302\240#\n' > nbsp.lst
says 'nbsp.lst:1: 2: malformed line: "//v\u{A0}#": U+00A0 (no-break space) stands there; one space and # mark a line, at its end' \
    '    //v\u{A0}#' '       ^'
try 'a no-break space before the mark' 2 cut -l nbsp.lst b.xml
printf '//v\\ #\n' > back.lst
says "back.lst:1: 2: malformed line: \"//v\\\\ #\": a step is /, //, /self:: or /descendant-or-self::, then * or a name" \
    '    //v\\ #' '       ^'
try 'a backslash' 2 cut -l back.lst b.xml
nbsp=$(printf 'n\302\240b\\xFF.xml')
says 'choughbell: n\u{A0}b\\xFF.xml: No such file or directory'
try 'a name with a no-break space and a backslash' 66 check "$nbsp"
