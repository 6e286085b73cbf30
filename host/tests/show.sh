# The page that shows a cut. Where python3 is there, pages are read by it: their text is the document, and what is kept is told apart.
python=$(command -v python3 || :)

# shows NAME STATUS LIST DOCUMENT PARTS..: the parts that the page has as kept whole, as tags, as chain and as a fault, in order.
shows() {
    what=$1 expected=$2 list=$3 document=$4
    shift 4
    try "show: $what" "$expected" show -q -l "$list" "$document" -o page.html
    [ -n "$python" ] || return 0
    printf '%s\n' "$@" > "$notes/parts"
    ran=$((ran + 1))
    "$python" "$here/page.py" page.html "$document" > "$notes/shown" 2>&1 || fault "show: $what" "$(tail -n 1 "$notes/shown")"
    same "show: $what" "$notes/parts" "$notes/shown"
}
# tells NAME TEXT: the page has it.
tells() { grep -qF -- "$2" page.html || fault "show: $1" "no $2"; }

printf '//v\n//w #\n//x\n' > show.lst
cat > show.xml << 'END'
<g k="1">
 <v a="2"/>text<p b="3"><w>one<v/></w ></p>
 <p>no</p>
</g>
END
shows 'a cut' 0 show.lst show.xml 'C <g' 'C >' 'T <v a="2"/>' 'C <p' 'C >' 'W <w>one' 'W <v/></w >' 'C </p>' 'C </g>'
tells 'a cut' '<title>show.xml by show.lst</title>'
tells 'a cut' '<td class="n">3</td><td>elements selected</td>'
tells 'a cut' '<td class="n">2</td><td class="n">1</td><td><code>//w #</code></td>'
tells 'a cut' '<tr class="none"><td class="n">3</td><td class="n">0</td><td><code>//x</code></td>'
tells 'a cut' '<a id="L2">2 WTCD</a>'
says 'show.lst:3: "//x" selects nothing'
try 'show: a line that selects nothing is told' 0 show -l show.lst show.xml -o told.html
cmp -s page.html told.html || fault 'show: quietly' 'another page'
cp page.html "$notes/prints"
try 'show: on the standard output' 0 show -ql show.lst show.xml
# Of elements with the same tag, the one that is on the way.
printf '<g><p></p><p><v/></p><p/></g>' > same.xml
shows 'equals' 0 v.lst same.xml 'C <g>' 'C <p>' 'T <v/>' 'C </p>' 'C </g>'

# Nothing of a document becomes HTML, nor of a list or a name; direction marks are shown by their numbers.
cat > hostile.xml << 'END'
<g><!-- </div><script>alert(1)</script> --><v k='">&lt;img src="http://x/">'>&lt;b></v><![CDATA[</body><style>*{}</style>&#60;]]></g>
END
shows 'a hostile document' 0 v.lst hostile.xml 'C <g>' "T <v k='\">&lt;img src=\"http://x/\">'>" 'T </v>' 'C </g>'
cp hostile.xml '<b>.xml'
printf '//v[@k=">script>"]\n' > '<i>.lst' && printf '//v[@k=">"]\n' >> '<i>.lst'
shows 'hostile names' 0 '<i>.lst' '<b>.xml' 'C <g>' 'C </g>'
tells 'hostile names' '<title>&lt;b&gt;.xml by &lt;i&gt;.lst</title>'
printf '<g>a\342\200\256b\302\240\r<v/></g>' > marks.xml
try 'show: marks' 0 show -ql v.lst marks.xml -o page.html
tells 'marks' 'a<kbd>\u{202E}</kbd>b<kbd>\u{A0}</kbd><kbd>\r</kbd>'

# What is dropped is folded where it is long; lines have their numbers.
{ echo '<g>' && repeat 20 'text
' && echo ' <v/></g>'; } > fold.xml
shows 'a fold' 0 v.lst fold.xml 'C <g>' 'T <v/>' 'C </g>'
tells 'a fold' '<details><summary>lines 2 to 21: 100 bytes dropped</summary>'
tells 'a fold' '<a id="L22">22 TC </a>'

# Refused: the page says so and marks the place; the status is the number, and the message comes as it does elsewhere.
printf '<g>\n<v></g>\n' > refused.xml
shows 'a refused document' 7 v.lst refused.xml '! </g>'
tells 'a refused document' 'refused.xml:2:4: 7: not well-formed: &quot;&lt;/g&gt;&quot;: &lt;v&gt; of line 2 is open (offset 7)'
says 'refused.xml:2:4: 7: not well-formed: "</g>": <v> of line 2 is open (offset 7)'
try 'show: a refused document is told' 7 show -l v.lst refused.xml -o page.html
printf '<g>one\ntwo ]]></g>\n' > refused.xml
shows 'the fault itself' 7 v.lst refused.xml '! ]]>'
printf '<g>\377</g>' > byte.xml
try 'show: a byte' 5 show -ql v.lst byte.xml -o page.html
tells 'a byte' '<mark><kbd>\xFF</kbd></mark>'
printf '//v\nv<\n' > refused.lst
says 'refused.lst:2: 2: malformed line: "v<": a line begins with / or //' '    v<' '    ^'
try 'show: a refused list' 2 show -l refused.lst show.xml -o page.html
tells 'a refused list' '<td class="n">2</td><td><code><mark>v&lt;</mark></code></td>'
says 'choughbell: none.xml: No such file or directory'
try 'show: no document' 66 show -l v.lst none.xml -o page.html
tells 'no document' 'Refused by 2'

# Many attributes. Large documents: 8 MiB with a million elements, in pieces; one tag that fills the size.
printf '<g%s><v%s/></g>' "$(seq -f ' a%g="x"' 32 | tr -d '\n')" "$(seq -f ' a%g="x"' 32 | tr -d '\n')" > attributes.xml
printf '//*[@a32="x"]\n//v\n' > attributes.lst
try 'show: 32 attributes' 0 show -ql attributes.lst attributes.xml -o page.html
tells '32 attributes' '<td class="n">1</td><td class="n">2</td><td><code>//*[@a32=&quot;x&quot;]</code></td>'
if [ -z "$run" ]; then
    { printf '<g>' && yes '<v>a</v>' | head -n 1048575 | tr -d '\n' && printf '</g>'; } > dense.xml
    try 'show: a million elements' 0 show -ql v.lst dense.xml -o page.html
    tells 'a million elements' '<td class="n">1</td><td class="n">1,048,575</td><td><code>//v</code></td>'
    [ "$(wc -c < page.html)" -lt 50000000 ] || fault 'show: a million elements' 'a page too long to open'
    { printf '<v k="' && head -c 16777207 /dev/zero | tr '\0' x && printf '"/>'; } > dense.xml
    try 'show: a tag at the limit' 0 show -ql v.lst dense.xml -o page.html
    tells 'a tag at the limit' '<td class="n">1</td><td class="n">1</td><td><code>//v</code></td>'
    rm -f dense.xml
fi

usage 'show wants a list: -l LIST, or -e PATH; by -l /dev/null the root alone is kept'
try 'show: no list' 64 show b.xml
usage 'show takes no --json'
try 'show: json' 64 show --json -l v.lst b.xml
