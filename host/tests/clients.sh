# Several lists in one run of `cut`, each with its output: every output is that of a run of its own, whatever the other lists are.
mkdir -p seats
printf '//v\n' > seats/v.lst
printf '//p #\n' > seats/p.lst
printf 'v\n' > seats/bad.lst
printf '/g\n' > seats/g.lst
cp b.xml seats/b.xml
cd seats

# fills: outputs that hold something old.
fills() { for file in "$@"; do printf old > "$file"; done; }

fills one two three four
try 'clients: four' 0 cut -l v.lst -o one -l p.lst -o two -l g.lst -o three -l /dev/null -o four b.xml
holds 'clients: the first' one '<g><p><v></v></p></g>'
holds 'clients: the second' two '<g><p><v/></p></g>'
holds 'clients: the third' three '<g></g>'
holds 'clients: the fourth' four '<g></g>'
fills one two
try 'clients: two, the options in other forms' 0 cut b.xml --list=v.lst -oone -q -lp.lst --output two
holds 'clients: two, the first' one '<g><p><v></v></p></g>'
holds 'clients: two, the second' two '<g><p><v/></p></g>'
input=b.xml
prints '<g><p><v></v></p></g>'
try 'clients: from and to the standard streams' 0 cut -l v.lst -o - -l p.lst -o two
input=v.lst
try 'clients: a list on the standard input' 0 cut -l - -o one -l p.lst -o two b.xml
holds 'clients: a list on the standard input' one '<g><p><v></v></p></g>'
try 'clients: paths' 0 cut -e //p -e '//v #' -o one -l g.lst -e //v -o two b.xml
holds 'clients: paths alone' one '<g><p><v/></p></g>'
holds 'clients: paths behind a list' two '<g><p><v></v></p></g>'
start pack v.lst -o v.bin && start pack p.lst -o p.bin
try 'clients: packed lists' 0 cut --packed -l v.bin -o one -l p.bin -o two b.xml
holds 'clients: packed lists' two '<g><p><v/></p></g>'
says 'g.lst and -e:2: "//x" selects nothing'
try 'clients: a line that selects nothing' 0 cut -l v.lst -o one -l g.lst -e //x -o two b.xml
try 'clients: one and the same list' 0 cut -l v.lst -o one -l v.lst -o two b.xml
cmp -s one two || fault 'clients: one and the same list' 'two cuts'
try 'clients: the sample' 0 cut -l "$root/examples/atlas.lst" -o one -l "$root/examples/desk.lst" -o two "$root/examples/gazetteer.xml"
for list in atlas=one desk=two; do
    ran=$((ran + 1))
    start cut -l "$root/examples/${list%=*}.lst" "$root/examples/gazetteer.xml" -o alone || fault "clients: ${list%=*} alone" "status $?"
    cmp -s alone "${list#*=}" || fault "clients: ${list%=*}" 'not as alone'
done

# A list that is refused stops its owner alone; the others are written, and its output is named and stays.
advice='a line begins with / or //'
fills one two three four
says "bad.lst:1: 2: malformed line: \"v\": $advice" '    v' '    ^' 'choughbell: two is not written'
try 'clients: a refused list' 2 cut -l v.lst -o one -l bad.lst -o two -l p.lst -o three b.xml
holds 'clients: before a refused list' one '<g><p><v></v></p></g>'
holds 'clients: a refused list' two old
holds 'clients: behind a refused list' three '<g><p><v/></p></g>'
fills one two
says 'v.lst: 13: not the packed form of a list' 'choughbell: one is not written'
try 'clients: a list that is not packed' 13 cut --packed -l v.lst -o one -l p.bin -o two b.xml
holds 'clients: a list that is not packed' one old
holds 'clients: beside a list that is not packed' two '<g><p><v/></p></g>'
fills one two
says 'choughbell: none: No such file or directory' 'choughbell: one is not written'
try 'clients: a missing list' 66 cut -l none -o one -l p.lst -o two b.xml
holds 'clients: a missing list' one old
holds 'clients: beside a missing list' two '<g><p><v/></p></g>'

# A document that is refused reaches each client whose list is sound, and is told once.
printf '<g><v></g>' > wrong.xml
fills one two three
says 'wrong.xml:1:7: 7: not well-formed: "</g>": <v> of line 1 is open (offset 6)' 'choughbell: one is not written' \
    "bad.lst:1: 2: malformed line: \"v\": $advice" '    v' '    ^' 'choughbell: two is not written' 'choughbell: three is not written'
try 'clients: a refused document' 7 cut -l v.lst -o one -l bad.lst -o two -l p.lst -o three wrong.xml
for file in one two three; do holds 'clients: a refused document' $file old; done
try 'clients: a refused document, quiet' 7 cut -q -l v.lst -o one -l bad.lst -o two wrong.xml
try 'clients: the first decides, quiet' 2 cut -q -l bad.lst -o one -l v.lst -o two wrong.xml
says 'choughbell: none.xml: No such file or directory'
try 'clients: a missing document' 66 cut -l v.lst -o one -l p.lst -o two none.xml
holds 'clients: a missing document' one old

# An output that can't be written stops its owner alone.
mkdir -p folder
says 'choughbell: folder: Is a directory'
try 'clients: an output that is a folder' 73 cut -l v.lst -o folder -l p.lst -o two b.xml
holds 'clients: beside an output that is a folder' two '<g><p><v/></p></g>'

# JSON: a line for each client, with its output.
kept='"number":0,"second":21,"third":1,"name_tests":3,"meaning":"written","length":21,"selected":1,"tests":3'
refused='"number":2,"second":1,"third":0,"name_tests":0,"meaning":"malformed line"'
place='"file":"bad.lst","line":1,"column":1,"there":"v","hint":"a line begins with / or //"'
lines "{$kept,\"output\":\"one\"}" "{$refused,\"output\":\"two\",$place}"
try 'clients: json' 2 cut --json -l v.lst -o one -l bad.lst -o two b.xml
prints '<g><p><v></v></p></g>'
says "{$kept,\"output\":\"standard output\"}" "{$refused,\"output\":\"two\",$place}"
try 'clients: json beside a cut' 2 cut --json -l v.lst -o - -l bad.lst -o two b.xml

pairs='-l LIST -o OUTPUT, up to four times'
wrong 'two lists' "each of several lists wants its own output behind it: $pairs" cut -l v.lst --list=v.lst b.xml
wrong 'two lists, two outputs behind them' "each of several lists wants its own output behind it: $pairs" \
    cut -l v.lst -l p.lst -o one -o two b.xml
wrong 'two outputs' "each of several outputs wants its own list before it: $pairs" cut -l v.lst -o x -o y b.xml
wrong 'one output for two' "two cuts can't both go to one" cut -l v.lst -o one -l p.lst -o one b.xml
wrong 'the standard input two times' 'only one of the lists and the document can come from the standard input' \
    cut -l v.lst -o one -l - -o two
wrong 'count and two lists' '--count takes one list' cut --count -l v.lst -o one -l p.lst -o two b.xml
wrong 'five lists' 'cut serves four lists at most, and these are 5' \
    cut -l v.lst -o 1 -l v.lst -o 2 -l v.lst -o 3 -l v.lst -o 4 -l v.lst -o 5 b.xml
wrong 'two lists for batch' '--list is given twice' batch -l v.lst -l p.lst
[ ! -e 1 ] && [ ! -e x ] || fault 'clients: wrong usage' 'a file is made'
cd ..
