# Rows for a spreadsheet: tables as they have to be, byte for byte, where they go, and refusals.
mkdir -p table
cp v.lst b.xml table
cd table

# table NAME LIST DOCUMENT RECORD..: the header and these records, each with CR LF behind it.
table() {
    name=$1
    printf '%s\n' "$2" > rows.lst
    printf '%s' "$3" > rows.xml
    shift 3
    printf '%s\r\n' 'path,text' "$@" > "$notes/prints"
    try "rows: $name" 0 rows -q -l rows.lst rows.xml
}
cr=$(printf '\r') lf='
'
table 'nothing selected' //x '<g/>'
table 'no text' //v '<g><p><v/></p></g>' g/p/v,
table 'in the order of start tags' '//*' '<g>a<p>b<v>c</v>d</p>e</g>' g,ae g/p,bd g/p/v,c
table 'marks change nothing' '//p #' '<g>a<p>b<v>c</v>d</p>e</g>' g/p,bd
table 'one record for two paths' "//v$lf/g/v" '<g><v>a</v></g>' g/v,a
table 'a comma' /g '<g>a,b</g>' 'g,"a,b"'
table 'a quote and no comma' /g '<g>a"b</g>' 'g,"a""b"'
table 'a line feed' /g "<g>a${lf}b</g>" "g,\"a${lf}b\""
table 'a carriage return' /g "<g>a${cr}b${cr}${lf}c</g>" "g,\"a${lf}b${lf}c\""
table 'one by a reference' /g '<g>a&#13;b</g>' "g,\"a${cr}b\""
table 'references' /g '<g>&lt;&amp;&gt;&apos;&#xE9;&#233;</g>' "g,<&>'éé"
table 'a section' /g '<g>a<![CDATA[<b> & ]]>c</g>' 'g,a<b> & c'
table 'comments and instructions' /g '<g>a<!-- b --><?c d?>e</g>' g,ae
table 'blanks stay' //v '<g><v> a  </v></g>' 'g/v, a  '
table 'accents' //préfecture '<g><préfecture>Été</préfecture></g>' g/préfecture,Été
table 'a test' '//v[@k="1"]' '<g><v k="1">a</v><v>b</v></g>' g/v,a

# The sample, as the README has it.
printf 'path,text\r\n' > "$notes/prints"
{
    printf 'gazetteer/country/province/commune/name,%s\r\n' Sainte-Aube
    printf 'gazetteer/country/province/commune/commune/name,%s\r\n' Aube-le-Bas
    printf 'gazetteer/country/province/commune/hamlet/name,%s\r\n' 'Les Prés & Moulins'
    printf 'gazetteer/country/province/commune/name,%s\r\n' Crêt-Doré
    printf 'gazetteer/country/province/commune/note,%s\r\n' 'spelt <Cret-Dore> on maps before 1950'
} >> "$notes/prints"
try 'rows: the sample' 0 rows -e //commune//name -e //note "$root/examples/gazetteer.xml"

# Where it comes from and goes; a list packed; a line that selects nothing.
input=b.xml
printf 'path,text\r\ng/p/v,\r\n' > "$notes/prints"
try 'rows: standard input and output' 0 rows -l v.lst
printf old > out.csv
try 'rows: to a file' 0 rows -l v.lst b.xml -o out.csv
holds 'rows: to a file' out.csv "path,text${cr}${lf}g/p/v,${cr}${lf}"
start pack v.lst -o v.bin
try 'rows: by a packed list' 0 rows --packed -l v.bin b.xml -o out.csv
says 'v.lst and -e:2: "//x" selects nothing'
try 'rows: a line that selects nothing' 0 rows -l v.lst -e //x b.xml -o out.csv

# JSON and refusals. What stands in the output stays.
lines '{"number":0,"second":19,"third":1,"meaning":"written","length":19,"selected":1}'
try 'rows: json' 0 rows --json -l v.lst b.xml -o out.csv
printf 'path,text\r\ng/p/v,\r\n' > "$notes/prints"
says '{"number":0,"second":19,"third":1,"meaning":"written","length":19,"selected":1}'
try 'rows: json beside the table' 0 rows --json -l v.lst b.xml
printf '<g><v></g>' > wrong.xml
printf old > out.csv
says 'wrong.xml:1:7: 7: not well-formed: "</g>": <v> of line 1 is open (offset 6)'
try 'rows: a refused document' 7 rows -l v.lst wrong.xml -o out.csv
holds 'rows: a refused document' out.csv old
printf 'v\n' > bad.lst
says 'bad.lst:1: 2: malformed line: "v": a line begins with / or //' '    v' '    ^'
try 'rows: a refused list' 2 rows -l bad.lst wrong.xml -o out.csv
says 'v.lst: 13: not the packed form of a list'
try 'rows: a list that is not packed' 13 rows --packed -l v.lst b.xml
numbers='"number":7,"second":6,"third":0,"meaning":"not well-formed"'
lines "{$numbers,\"file\":\"wrong.xml\",\"offset\":6,\"line\":1,\"column\":7,\"there\":\"</g>\",\"hint\":\"<v> of line 1 is open\"}"
try 'rows: json, refused' 7 rows --json -l v.lst wrong.xml -o out.csv
says 'choughbell: none.xml: No such file or directory'
try 'rows: a missing document' 66 rows -l v.lst none.xml
try 'rows: quiet' 7 rows -q -l v.lst wrong.xml

# Read back by Python's csv, where python3 is there: the fields are those of the definition.
if [ -n "$python" ]; then
    ran=$((ran + 1))
    printf '<g>a,"b&#13;\r\n<p>&quot;\n</p><p>c\rd</p><p></p><v>é</v>&#10;</g>' > back.xml
    start rows -e '//*' back.xml -o back.csv || fault 'rows: read back' "status $?"
    "$python" - back.csv <<'END' || fault 'rows: read back' 'other fields'
import csv, sys
rows = list(csv.reader(open(sys.argv[1], encoding="utf-8", newline=""), strict=True))
assert rows == [["path", "text"], ["g", 'a,"b\r\n\n'], ["g/p", '"\n'], ["g/p", "c\nd"], ["g/p", ""], ["g/v", "é"]], rows
END
fi

wrong 'rows without a list' 'rows wants a list: -l LIST, or -e PATH' rows b.xml
wrong 'rows and count' 'rows takes no --count' rows --count -l v.lst b.xml
wrong 'rows of two documents' 'rows takes one document, and b.xml is a second' rows -l v.lst b.xml b.xml
wrong 'rows by two lists' '--list is given twice' rows -l v.lst -l v.lst b.xml
wrong 'rows, two times standard input' "the list and the document can't both come from the standard input" rows -l -
cd ..
