# Batches: documents by name into a folder, and a batch file to another; documents, batches and lists that are refused.
mkdir -p post
printf '<g><p><v/></p></g>' > post/one.xml
printf '<g>\n<v></g>' > post/two.xml
printf '<v/>' > post/three.xml

try 'batch into a folder' 0 batch -l v.lst -d cuts post/one.xml post/three.xml
holds 'batch into a folder' cuts/one.xml '<g><p><v></v></p></g>'
holds 'batch into a folder' cuts/three.xml '<v></v>'

# A refused document is named, keeps what stands under its name, and does not end the batch.
printf old > cuts/two.xml
printf old > cuts/three.xml
says 'post/two.xml:2:4: 7: not well-formed: "</g>": <v> of line 2 is open (offset 7)'
try 'a refused document' 7 batch --list v.lst --folder cuts post/two.xml post/three.xml
holds 'a refused document' cuts/two.xml old
holds 'a refused document' cuts/three.xml '<v></v>'
printf '<!DOCTYPE g><g/>' > post/four.xml
: > post/five.xml
says 'post/five.xml:1:1: 7: not well-formed: at the end: there is no root (offset 0)' \
    'post/four.xml:1:1: 6: document type: "<!DOCTYPE g>": take the type out; XML without one is the same to this filter (offset 0)' \
    'choughbell explain 7 tells more'
start batch -l v.lst -d none post/five.xml post/four.xml > "$notes/printed" 2> "$notes/said" || got=$?
ran=$((ran + 1))
status 'the first refusal is the status' 7 "${got:-0}"
[ "$(sed 's/\(<!DOCTYPE g>"\): .*/\1/' "$notes/said")" = "$(sed 's/\(<!DOCTYPE g>"\): .*/\1/' "$notes/says")" ] ||
    fault 'two refused documents' "$(cat "$notes/said")"
[ -z "$(ls none)" ] || fault 'two refused documents' 'a file is made'
fresh
try 'a refused document, quiet' 7 batch -q -l v.lst -d cuts post/two.xml

# A document that is not there is told, and the others are cut.
rm -f cuts/three.xml
says 'choughbell: post/six.xml: No such file or directory'
try 'a missing document' 66 batch -l v.lst -d cuts post/six.xml post/three.xml
holds 'a missing document' cuts/three.xml '<v></v>'
says 'choughbell: post/one.xml/three.xml: Not a directory'
try 'a folder that is a file' 73 batch -l v.lst -d post/one.xml post/three.xml
says 'choughbell: none/below: No such file or directory'
rm -rf none
try 'a folder in no folder' 73 batch -l v.lst -d none/below post/three.xml

# A list at fault decides, and nothing is made.
printf 'v\n' > bad.lst
start batch -l bad.lst -d unmade post/one.xml > "$notes/printed" 2> "$notes/said" && fault 'a refused list' 'status 0'
ran=$((ran + 1))
head -n 1 "$notes/said" | grep -q '^bad.lst:1: 2: malformed line: "v": ' || fault 'a refused list' "$(cat "$notes/said")"
[ ! -e unmade ] || fault 'a refused list' 'a folder is made'

# A batch file, in and out: lengths of 18 and 3 bytes, and of 21 and none.
printf '\001\000\000\000\022<g><p><v/></p></g>\000\000\000\003<g>' > night.post
printf '\001\000\000\000\025<g><p><v></v></p></g>\000\000\000\000' > "$notes/night"
says 'night.post, document 2:1:4: 7: not well-formed: at the end: <g> of line 1 is open (offset 3)'
try 'a batch file' 7 batch -l v.lst night.post -o night.cut
same 'a batch file' "$notes/night" night.cut
input=night.post
cp "$notes/night" "$notes/prints"
says 'standard input, document 2:1:4: 7: not well-formed: at the end: <g> of line 1 is open (offset 3)'
try 'a batch on standard input' 7 batch -l v.lst
try 'a result is a batch' 7 batch -q -l v.lst night.cut -o again.cut
same 'a result is a batch' "$notes/night" again.cut
printf '\001' > none.post
printf '\001' > "$notes/prints"
try 'a batch of no documents' 0 batch -l v.lst none.post

# refuses NAME BYTES MESSAGE: bytes that are no batch. What stands in the output stays.
refuses() {
    printf "$2" > bad.post
    printf old > bad.cut
    says "bad.post: 11: not a batch: $3"
    try "$1" 11 batch -l v.lst bad.post -o bad.cut
    holds "$1" bad.cut old
}
refuses 'an empty batch' '' 'it is empty (offset 0)'
refuses 'another version' '\002' 'its version byte is 2, not 1 (offset 0)'
refuses 'a length cut short' '\001\000\000\000\001<\000\000\000' 'a length has 3 of its 4 bytes (offset 6)'
refuses 'a length past the end' '\001\000\000\000\002<' 'a length says 2, and 1 bytes are left (offset 1)'

# --json: a line for each document, and one for the whole; trouble with files stays a message.
written() { echo "{\"number\":0,\"second\":$2,\"meaning\":\"written\",\"file\":\"$1\",\"length\":$2}"; }
whole() {
    echo "{\"number\":0,\"second\":$1,\"third\":$2,\"meaning\":\"written\",\"length\":$1,\"selected\":$2,\"documents\":$3,\"cut\":$4}"
}
two='{"number":7,"second":7,"third":0,"meaning":"not well-formed","file":"post/two.xml",'
place='"offset":7,"line":2,"column":4,"there":"</g>","hint":"<v> of line 2 is open"}'
lines "$(written post/one.xml 21)" "$two$place" "$(written post/three.xml 7)" "$(whole 28 2 4 2)"
says 'choughbell: post/six.xml: No such file or directory'
try 'a batch, json' 66 batch --json -l v.lst -d cuts post/one.xml post/six.xml post/two.xml post/three.xml
end='"offset":3,"line":1,"column":4,"there":"","hint":"<g> of line 1 is open"}'
open="{\"number\":7,\"second\":3,\"third\":0,\"meaning\":\"not well-formed\",\"file\":\"night.post, document 2\",$end"
lines "$(written 'night.post, document 1' 21)" "$open" "$(whole 30 1 2 1)"
try 'a batch file, json' 7 batch --json -l v.lst night.post -o night.cut
cp "$notes/night" "$notes/prints"
says "$(written 'night.post, document 1' 21)" "$open" "$(whole 30 1 2 1)"
try 'a batch file, json beside it' 7 batch --json -l v.lst night.post
printf '\002' > bad.post
lines '{"number":11,"second":0,"third":0,"meaning":"not a batch","file":"bad.post","offset":0,"hint":"its version byte is 2, not 1"}'
try 'no batch, json' 11 batch --json -l v.lst bad.post -o bad.cut
place='"line":1,"column":1,"there":"v","hint":"a line begins with / or //"}'
lines "{\"number\":2,\"second\":1,\"third\":0,\"meaning\":\"malformed line\",\"file\":\"bad.lst\",$place"
try 'a refused list, json' 2 batch --json -l bad.lst -d unmade post/one.xml

wrong 'a batch without a list' 'batch wants a list: -l LIST, or -e PATH' batch post/one.xml
wrong 'a folder without documents' 'batch with --folder wants documents' batch -l v.lst -d cuts
wrong 'two documents of one name' 'two documents have the name one.xml' batch -l v.lst -d cuts post/one.xml one.xml
wrong 'a folder and an output' "--folder and --output don't go together" batch -l v.lst -d cuts -o x post/one.xml
wrong 'two batches' 'batch takes one batch, or with -d FOLDER documents' batch -l v.lst a.post b.post
wrong 'a batch and count' 'batch takes no --count' batch --count -l v.lst
wrong 'a folder for cut' 'cut takes no --folder' cut -l v.lst -d cuts b.xml
