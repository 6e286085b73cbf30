# The packed list: `pack`, `unpack`, and --packed of the commands that take a list. The bytes are worked out by hand from document 02, Q-7.
# bytes FILE NUMBERS..: a file of these bytes, in octal.
bytes() {
    to=$1 && shift
    printf "$(printf '\\%s' "$@")" > "$to"
}
# gives NAME FILE: the output of the last run is this file. The runs write to `made`.
gives() { cmp -s "$2" made || fault "$1" "$(od -An -tu1 made | head -n 2 | tr '\n' ' ')"; }

printf '//v #\n/a/self::*[@k="xy"]\n' > pack.lst
# 1; 0 6, marked, 1 step: descendant, 1 byte, v, no test; 0 12, not marked, 2 steps: child, 1, a; self, *; test: 1, k, 2, xy.
bytes pack.bin 1 0 6 1 1 1 1 166 0 0 14 0 2 0 1 141 2 0 1 153 2 170 171
try 'pack' 0 pack pack.lst -o made
gives 'pack' pack.bin
try 'unpack' 0 unpack pack.bin -o made
gives 'unpack' pack.lst
input=pack.bin
prints '//v #
/a/self::*[@k="xy"]
'
try 'unpack to the standard output' 0 unpack
bytes one.bin 1
try 'pack an empty list' 0 pack /dev/null -o made
gives 'pack an empty list' one.bin
try 'unpack an empty list' 0 unpack one.bin
says '{"number":0,"second":1,"third":0,"name_tests":0,"meaning":"written","length":1}'
printf '\001' > "$notes/prints"
try 'numbers of a packed list' 0 pack --json /dev/null

# A cut by a packed list is the cut by its text.
bytes v.bin 1 0 6 0 1 1 1 166 0
prints '<g><p><v></v></p></g>'
try 'a cut by a packed list' 0 cut --packed -l v.bin b.xml
prints '<g></g>'
try 'a cut by the empty packed list' 0 cut --packed -l one.bin b.xml
try 'a packed list as text' 2 cut -q -l v.bin b.xml

# So are a batch by one, and the covering of two.
printf '\001\000\000\000\004<v/>' > v.post
printf '\001\000\000\000\007<v></v>' > "$notes/prints"
try 'a batch by a packed list' 0 batch --packed -l v.bin v.post
try 'documents by a packed list' 0 batch --packed -l v.bin -d packed-cuts b.xml
holds 'documents by a packed list' packed-cuts/b.xml '<g><p><v></v></p></g>'
lines yes
try 'packed lists that cover' 0 covers --packed --narrow v.bin --wide pack.bin
lines 'pack.bin:1: no path of v.bin covers "//v #"' "pack.bin:2: no path of v.bin covers \"/a/self::*[@k=\"xy\"]\""
try 'packed lists that do not' 20 covers --packed --narrow pack.bin --wide v.bin

# 13, with nothing written; and 1 to 3 of a text.
# bad NAME NUMBERS..
bad() {
    name=$1 && shift
    bytes bad.bin "$@"
    printf old > made
    says 'bad.bin: 13: not the packed form of a list'
    try "$name" 13 unpack bad.bin -o made
    holds "$name" made old
}
: > empty.bin
says 'empty.bin: 13: not the packed form of a list'
try 'no byte' 13 unpack empty.bin
bad 'another version' 2
bad 'a length that counts itself' 1 0 10 0 1 1 1 166 0
bad 'a length too small' 1 0 5 0 1 1 1 166 0
bad 'a length too large' 1 0 7 0 1 1 1 166 0
bad 'little-endian' 1 6 0 0 1 1 1 166 0
bad 'mark 2' 1 0 6 2 1 1 1 166 0
bad 'no steps' 1 0 3 0 0 0
bad 'kind 4' 1 0 6 0 1 4 1 166 0
bad 'a name that is none' 1 0 6 0 1 1 1 61 0
bad 'two colons' 1 0 11 0 1 0 4 141 72 72 142 0
bad 'a test without a name' 1 0 10 0 1 1 1 166 0 1 170
bad 'a byte behind' 1 0 6 0 1 1 1 166 0 0
bad 'cut short' 1 0 6 0 1 1 1 166
says 'bad.bin: 13: not the packed form of a list'
try 'a cut by no packed list' 13 cut --packed -l bad.bin b.xml
says 'bad.bin: 13: not the packed form of a list'
try 'a batch by no packed list' 13 batch --packed -l bad.bin -d unpacked b.xml
[ ! -e unpacked ] || fault 'a batch by no packed list' 'a folder is made'
says 'bad.bin: 13: not the packed form of a list'
try 'covers: a narrow list that is not packed' 13 covers --packed --narrow bad.bin --wide v.lst
lines '{"number":13,"second":0,"third":2,"meaning":"not the packed form of a list","file":"v.lst"}'
try 'covers: a wide list that is not packed' 13 covers --packed --narrow v.bin --wide v.lst --json
says 'choughbell: absent.xml: No such file or directory'
try 'a file that is not there before a list' 66 cut --packed -l bad.bin absent.xml
says '{"number":13,"second":0,"third":0,"name_tests":0,"meaning":"not the packed form of a list","file":"bad.bin"}'
try 'numbers of no packed list' 13 unpack --json bad.bin
try 'no packed list, quiet' 13 unpack -q bad.bin
repeat 33 '/a
' > many.lst
printf old > made
try 'a text with 33 lines, quiet' 3 pack -q many.lst -o made
holds 'a text with 33 lines' made old
repeat 32 '/a
' > many.lst
try '32 lines' 0 pack many.lst -o many.bin
try '32 lines back' 0 unpack many.bin -o made
gives '32 lines back' many.lst
