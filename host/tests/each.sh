# check of several documents, and --each: how many elements each line of a list selects.
try 'check: two documents' 0 check b.xml h.xml
says 'bad.xml:1:4: 7: not well-formed: "</v>": <g> of line 1 is open (offset 3)' 'choughbell: absent.xml: No such file or directory'
printf '<g></v>' > bad.xml
try 'check: the first that is refused' 7 check b.xml bad.xml absent.xml h.xml
says 'choughbell: absent.xml: No such file or directory' 'bad.xml:1:4: 7: not well-formed: "</v>": <g> of line 1 is open (offset 3)'
try 'check: the first that is not there' 66 check absent.xml bad.xml
try 'check: several, quietly' 7 check -q bad.xml absent.xml
input=b.xml
sound='{"number":0,"second":0,"third":0,"name_tests":0,"meaning":"sound","file":'
place='"offset":3,"line":1,"column":4,"there":"</v>","hint":"<g> of line 1 is open"'
bad='{"number":7,"second":3,"third":0,"name_tests":0,"meaning":"not well-formed","file":"bad.xml",'
lines "$sound\"h.xml\"}" "$bad$place}" "$sound\"standard input\"}"
try 'check: several, json' 7 check --json h.xml bad.xml -

# The sample has 3 communes, 2 hamlets, one lake with a name, no river; a line is counted by itself, though another keeps its elements.
printf '//commune\n//hamlet #\n//river\n//lake #\n//lake/name\n' > each.lst
sample=$root/examples/gazetteer.xml
river='each.lst:3: "//river" selects nothing'
lines '3 //commune' '2 //hamlet #' '0 //river' '1 //lake #' '1 //lake/name'
says "$river"
try 'each line' 0 cut --each -l each.lst "$sample"
start cut -q -l each.lst "$sample" > each.xml
lines "kept 7 $(wc -c < each.xml)" "name tests $((5 * 26 + 1))" '3 //commune' '2 //hamlet #' '0 //river' '1 //lake #' '1 //lake/name'
says "$river"
try 'each line and the numbers' 0 cut --count --each -l each.lst "$sample"
cp each.xml "$notes/prints"
says "$river"
try 'a line that selects nothing' 0 cut -l each.lst "$sample"
says "$river"
try 'a line that selects nothing, by the plain engine' 0 cut --plain -l each.lst "$sample" -o plain-each.xml
same 'a line that selects nothing, by the plain engine' each.xml plain-each.xml
try 'each line, quietly' 0 cut -q --each -l each.lst "$sample"
length=$(wc -c < each.xml)
numbers="\"number\":0,\"second\":$length,\"third\":7,\"name_tests\":131,\"meaning\":\"written\""
named="\"length\":$length,\"selected\":7,\"tests\":131"
lines "{$numbers,$named,\"each\":[3,2,0,1,1]}"
try 'each line, json' 0 cut --json --each -l each.lst "$sample"
lines '0 //river' '1 //lake'
says '-e:1: "//river" selects nothing'
try 'each path' 0 cut --each -e //river -e //lake "$sample"

# A cut over the size: the document is asked instead. 4,194,302 elements.
{ printf '<g>' && yes '<v/>' | head -n 4194302 | tr -d '\n' && printf '</g>'; } > wide.xml
lines '4194302 //v' '1 /g' '0 //w'
says 'wide.lst:3: "//w" selects nothing'
printf '//v\n/g\n//w\n' > wide.lst
try 'each line of a long cut' 0 cut --each -l wide.lst wide.xml
rm -f wide.xml
