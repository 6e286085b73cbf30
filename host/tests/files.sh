# Where lists and documents come from and where cuts go: standard input and output, files, links, names of any kind.
cut_b='<g><p><v></v></p></g>'

input=b.xml
prints "$cut_b"
try 'document on standard input' 0 cut -l v.lst
input=b.xml
prints "$cut_b"
try 'document as -' 0 cut -l v.lst - -o -
input=b.xml
prints "$cut_b"
try 'document as /dev/stdin' 0 cut -l v.lst /dev/stdin -o /dev/stdout
input=v.lst
prints "$cut_b"
try 'list on standard input' 0 cut --list - b.xml

try 'a new file' 0 cut -l v.lst b.xml -o new.xml
holds 'a new file' new.xml "$cut_b"
[ "$(stat -c %a new.xml)" = 644 ] || fault 'a new file' 'permissions'
printf 'a longer file than the cut that takes its place' > old.xml
chmod 640 old.xml
try 'an old file' 0 cut -l v.lst b.xml --output old.xml
holds 'an old file' old.xml "$cut_b"
[ "$(stat -c %a old.xml)" = 640 ] || fault 'an old file' 'permissions'
printf '<g></v>' > bad.xml
says 'bad.xml:1:4: 7: not well-formed: "</v>": <g> of line 1 is open (offset 3)'
try 'a refused run' 7 cut -l v.lst bad.xml -o old.xml
holds 'a refused run' old.xml "$cut_b"
try 'a refused run, quiet' 7 cut -l v.lst bad.xml -o none.xml -q
[ ! -e none.xml ] || fault 'a refused run, quiet' 'a file is made'
cp b.xml same.xml
try 'the same file' 0 cut -l v.lst same.xml -o same.xml
holds 'the same file' same.xml "$cut_b"

mkdir -p below
printf old > below/real.xml
ln -s real.xml below/near.xml
ln -s below/near.xml link.xml
try 'a link' 0 cut -l v.lst b.xml -o link.xml
holds 'a link' below/real.xml "$cut_b"
for link in link.xml below/near.xml; do
    [ -h $link ] || fault 'a link' "$link is gone"
done
ln -s below/later.xml dangling.xml
try 'a link to nothing' 0 cut -l v.lst b.xml -o dangling.xml
holds 'a link to nothing' below/later.xml "$cut_b"
ln -s ring.xml ring.xml
says 'choughbell: ring.xml: Too many levels of symbolic links'
try 'a ring of links' 73 cut -l v.lst b.xml -o ring.xml

try 'no device' 0 cut -l v.lst b.xml -o /dev/null
[ -c /dev/null ] || fault 'no device' '/dev/null is replaced'
mkfifo pipe
cat pipe > piped & reader=$!
try 'a pipe' 0 cut -l v.lst b.xml -o pipe
wait $reader
holds 'a pipe' piped "$cut_b"

# Names of open files are the open files: what stands in the file behind them stays, and what follows comes behind the cut.
for name in /dev/fd/3 /proc/self/fd/3; do
    ran=$((ran + 1)) got=0
    { echo before >&3 && start cut -l v.lst b.xml -o $name && echo ' after' >&3; } 3> streamed 2> "$notes/said" || got=$?
    status "$name" 0 "$got"
    holds "$name" streamed "before
$cut_b after
"
done
for name in /dev/stderr /dev/fd/2 /proc/self/fd/2; do
    ran=$((ran + 1)) got=0
    { echo before >&2 && start cut -l v.lst b.xml -o $name && echo ' after' >&2; } 2> streamed || got=$?
    status "$name" 0 "$got"
    holds "$name" streamed "before
$cut_b after
"
done
for name in /dev/stdout /dev/fd/1 /proc/self/fd/1; do
    ran=$((ran + 1)) got=0
    { echo before && start cut -l v.lst b.xml -o $name && echo ' after'; } > streamed || got=$?
    status "$name" 0 "$got"
    holds "$name" streamed "before
$cut_b after
"
done
says 'choughbell: /dev/fd/9: Bad file descriptor'
try 'a file that is not open' 74 cut -l v.lst b.xml -o /dev/fd/9
input=b.xml
prints "$cut_b"
try 'document as /dev/fd/0' 0 cut -l v.lst /dev/fd/0

says 'choughbell: below: Is a directory'
try 'a directory as output' 73 cut -l v.lst b.xml -o below
says 'choughbell: below/none/x.xml: no temporary file beside it: No such file or directory'
try 'a missing folder' 73 cut -l v.lst b.xml -o below/none/x.xml
says 'choughbell: none.xml: No such file or directory'
try 'a missing document' 66 check none.xml
says 'choughbell: nolist.lst: No such file or directory'
try 'a missing list' 66 cut -l nolist.lst b.xml
says 'choughbell: : No such file or directory'
try 'an empty name' 66 check ''
says 'choughbell: below: Is a directory'
try 'a directory as document' 66 check below
says 'choughbell: below: Is a directory'
try 'a directory as list' 66 cut -l below b.xml
input=below
says 'choughbell: standard input: Is a directory'
try 'a directory as standard input' 66 check
says 'choughbell: b.xml/x: Not a directory'
try 'below a file' 66 check b.xml/x
try 'a missing document, quiet' 66 check none.xml -q

cp b.xml 'a b.xml'
cp v.lst ' v.lst'
try 'names with blanks' 0 cut -l ' v.lst' 'a b.xml' -o ' the cut '
holds 'names with blanks' ' the cut ' "$cut_b"
cp bad.xml 'b d.xml'
says 'b d.xml:1:4: 7: not well-formed: "</v>": <g> of line 1 is open (offset 3)'
try 'a name with a blank, refused' 7 check 'b d.xml'
bytes=$(printf 'b\377d.xml')
cp bad.xml "$bytes"
says 'b\xFFd.xml:1:4: 7: not well-formed: "</v>": <g> of line 1 is open (offset 3)'
try 'a name that is not UTF-8' 7 check "$bytes"
try 'a name that is not UTF-8, written' 0 cut -l v.lst b.xml -o"$bytes"
holds 'a name that is not UTF-8, written' "$bytes" "$cut_b"
feed=$(printf 'b\nd.xml')
says 'choughbell: b\nd.xml: No such file or directory'
try 'a name with a line feed' 66 check "$feed"
cp b.xml -- -b.xml
prints "$cut_b"
try 'a name with a dash' 0 cut -l v.lst -- -b.xml
long=$(repeat 255 n)
try 'a long name' 0 cut -l v.lst b.xml -o "$long"
holds 'a long name' "$long" "$cut_b"
