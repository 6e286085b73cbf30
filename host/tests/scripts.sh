# --json: each line as it should be, and read once more by a strict reader where python3 is there.

# json NAME STATUS LINE WORDS..: a run that prints a line of JSON and says nothing.
json() {
    name=$1 expected=$2 line=$3
    shift 3
    lines "$line"
    try "json: $name" "$expected" "$@"
    strict "$name" "$notes/printed"
}

# strict NAME FILE: one line, an object, its members of the types that they should have, none twice.
python=$(command -v python3 || :)
strict() {
    [ -n "$python" ] || return 0
    "$python" - "$2" <<'END' || fault "json: $1" 'is not strict'
import json, sys
def members(pairs):
    assert len(pairs) == len(dict(pairs))
    return dict(pairs)
text = open(sys.argv[1], encoding="utf-8", newline="").read()
assert text.endswith("\n") and text.count("\n") == 1
o = json.loads(text, object_pairs_hook=members, parse_constant=lambda c: 1 / 0)
assert all(type(o[k]) is int for k in ("number", "second", "third", "name_tests"))
assert o["number"] == 0 or o["name_tests"] == 0
assert type(o["meaning"]) is str and (o["number"] == 0 or type(o["file"]) is str)
END
}

kept='{"number":0,"second":21,"third":1,"name_tests":3,"meaning":"written","length":21,"selected":1,"tests":3}'
json 'numbers only' 0 "$kept" cut -l v.lst b.xml --count --json
json 'to a file' 0 "$kept" cut -l v.lst b.xml --json -o json.xml
holds 'json: to a file' json.xml '<g><p><v></v></p></g>'
json 'the sample' 0 '{"number":0,"second":289,"third":8,"name_tests":113,"meaning":"written","length":289,"selected":8,"tests":113}' \
    cut -l "$root/examples/atlas.lst" "$root/examples/gazetteer.xml" --count --json
json 'an empty list' 0 '{"number":0,"second":7,"third":0,"name_tests":0,"meaning":"written","length":7,"selected":0,"tests":0}' \
    cut -l none.lst b.xml --count --json
json 'check' 0 '{"number":0,"second":0,"third":0,"name_tests":0,"meaning":"sound"}' check --json b.xml
long='"meaning":"list over 8,192 bytes","file":"long.lst","hint":"it has 8,193"'
json 'a list too long' 1 "{\"number\":1,\"second\":0,\"third\":0,\"name_tests\":0,$long}" \
    cut -l long.lst b.xml --count --json
# refusal NUMBER SECOND MEANING FILE PLACE THERE HINT: the line of a refusal with a place.
refusal() {
    printf '{"number":%s,"second":%s,"third":0,"name_tests":0,"meaning":"%s","file":"%s",%s,"there":"%s","hint":"%s"}' "$@"
}
step='a step is /, //, /self:: or /descendant-or-self::, then * or a name'
open='<g> of line 1 is open'
printf '/a\n/b "\\\n' > quote.lst
json 'a line' 2 "$(refusal 2 2 'malformed line' quote.lst '"line":2,"column":3' '/b \"\\\\' "$step")" cut -l quote.lst b.xml --count --json
printf '/g[@k]\n' > test.lst
hint='a test asks for a value; a test is [@name=\"value\"]'
json 'a test' 2 "$(refusal 2 1 'malformed line' test.lst '"line":1,"column":6' '/g[@k]' "$hint")" cut -l test.lst b.xml --count --json
printf '<g k="1">\n\t<v>\377' > quote.xml
place='"offset":14,"line":2,"column":5'
json 'a byte' 5 "$(refusal 5 14 'not a character' quote.xml "$place" '\\xFF' 'FF is not UTF-8')" check --json quote.xml
printf '<g k="1" k="1"/>' > 'q".xml'
place='"offset":0,"line":1,"column":1'
json 'a name with a quote' 7 "$(refusal 7 0 'not well-formed' 'q\".xml' "$place" '<g k=\"1\" k=\"1\"/>' 'the attribute k stands twice' \
    | sed 's/}$/,"fault_line":1,"fault_column":10}/')" check --json 'q".xml'
bytes=$(printf 'b\377d')
cp bad.xml "$bytes"
place='"offset":3,"line":1,"column":4'
json 'a name that is not UTF-8' 7 "$(refusal 7 3 'not well-formed' 'b\\xFFd' "$place" '</v>' "$open")" check --json "$bytes"
printf '<?xml version="1.0" encoding="UTF8"?><g/>' > utf8.xml
front='"offset":0,"line":1,"column":1' there='<?xml version=\"1.0\" encoding=\"UTF8\"?>'
hint='the declaration says \"UTF8\"; xmllint --encode UTF-8 converts the file and its declaration'
json 'another encoding' 10 "$(refusal 10 0 'another encoding' utf8.xml "$front" "$there" "$hint")" check --json utf8.xml
json 'the end' 7 "$(refusal 7 0 'not well-formed' 'standard input' '"offset":0,"line":1,"column":1' '' 'there is no root')" check --json

# Where the cut goes to the standard output, or would go there, the numbers go to the standard error.
prints '<g><p><v></v></p></g>'
says '{"number":0,"second":21,"third":1,"name_tests":3,"meaning":"written","length":21,"selected":1,"tests":3}'
try 'json: beside the cut' 0 cut -l v.lst b.xml --json
says "$(refusal 7 3 'not well-formed' bad.xml "$place" '</v>' "$open")"
try 'json: beside no cut' 7 cut -l v.lst bad.xml --json
says 'choughbell: none.xml: No such file or directory'
try 'json: trouble stays a message' 66 check --json none.xml
