# Documents at the size limit and past it, and cuts longer than their documents.

# A document of N bytes: an element of text.
filled() { printf '<g>' && head -c $(($1 - 7)) /dev/zero | tr '\0' x && printf '</g>'; }
printf '/g #\n' > whole.lst
filled 16777216 > big.xml
try '16,777,216 bytes' 0 check big.xml
try '16,777,216 bytes, cut' 0 cut -l whole.lst big.xml -o cut.xml
same '16,777,216 bytes, cut' big.xml cut.xml
lines 'kept 1 16777216' 'name tests 1'
input=big.xml
try '16,777,216 bytes on standard input' 0 cut -l whole.lst --count

filled 16777217 > big.xml
says 'big.xml: 4: document over 16,777,216 bytes: it has 16,777,217'
try '16,777,217 bytes' 4 check big.xml
says 'big.xml: 4: document over 16,777,216 bytes: it has 16,777,217'
try '16,777,217 bytes, cut' 4 cut -l whole.lst big.xml -o cut.xml
[ "$(wc -c < cut.xml)" = 16777216 ] || fault '16,777,217 bytes, cut' 'the old file is changed'
input=big.xml
says 'standard input: 4: document over 16,777,216 bytes: it has 16,777,217'
try '16,777,217 bytes on standard input' 4 check
says '/dev/zero: 4: document over 16,777,216 bytes'
try 'a document without end' 4 check /dev/zero

# The length comes before the encoding that is declared, and that before the characters.
{ printf '<?xml version="1.0" encoding="x"?>' && head -c 16777182 /dev/zero; } > big.xml
try '16,777,216 bytes, another encoding' 10 check --quiet big.xml
printf x >> big.xml
says 'big.xml: 4: document over 16,777,216 bytes: it has 16,777,217'
try '16,777,217 bytes, another encoding' 4 check big.xml
rm -f big.xml cut.xml

# Four bytes are written as seven: the most that a cut grows. 3 + 4 * 4,194,302 + 4 bytes.
{ printf '<g>' && yes '<v/>' | head -n 4194302 | tr -d '\n' && printf '</g>'; } > wide.xml
lines 'kept 4194302 29360121' 'name tests 4194303'
try 'the longest cut' 0 cut --count -l v.lst wide.xml

# A fault on a far line.
{ echo '<g>' && yes '<v></v>' | head -n 200000 && printf ' <w></g>'; } > far.xml
says 'far.xml:200002:5: 7: not well-formed: "</g>": <w> of line 200002 is open (offset 1600008)'
try 'a far line' 7 cut -l v.lst far.xml
rm -f wide.xml far.xml
