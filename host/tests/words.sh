# Command lines: wrong ones of each kind, the forms of options, and the texts of explain, help and version.

# wrong NAME MESSAGE WORDS..
wrong() {
    name=$1
    usage "$2"
    shift 2
    try "wrong usage: $name" 64 "$@"
}
commands='it is cut, rows, check, batch, pack, unpack, covers, mend, show or explain'
wrong 'nothing' "there is no command: $commands"
wrong 'another command' "there is no command trim: $commands" trim b.xml
wrong 'an option first' "there is no command --quiet: $commands" --quiet check b.xml
wrong 'a command with a line feed' "there is no command a\\nb: $commands" 'a
b'
wanted='cut wants a list: -l LIST, or -e PATH; by -l /dev/null the root alone is kept'
wrong 'no list' "$wanted" cut b.xml
wrong 'a forgotten -l' "$wanted" cut v.lst b.xml
wrong 'a list without a name' "--list wants a file's name" cut b.xml -l
wrong 'an output without a name' "--output wants a file's name" cut -l v.lst b.xml --output
wrong 'two outputs' '--output is given twice' mend -o x -o y b.xml
wrong 'two documents' 'cut takes one document, and h.xml is a second' cut -l v.lst b.xml h.xml
wrong 'standard input to check, two times' "two documents can't both come from the standard input" check - b.xml /dev/fd/0
wrong 'each and output' '--each writes no cut, so it takes no --output' cut -l v.lst --each -o x b.xml
wrong 'an unknown option' 'there is no option --lists' cut --lists v.lst
wrong 'an unknown short option' 'there is no option -x' check -x
wrong 'a value for a flag' '--json takes no value' check --json=yes
wrong 'two times standard input' "the list and the document can't both come from the standard input" cut -l -
wrong 'two times standard input, by name' "the list and the document can't both come from the standard input" cut -l - /dev/stdin
wrong 'two times standard input, by number' "the list and the document can't both come from the standard input" cut -l /dev/fd/0 -
wrong 'count and output' '--count writes no cut, so it takes no --output' cut -l v.lst --count -o x b.xml
wrong 'quiet and json' "--quiet and --json don't go together" check -q --json b.xml
wrong 'check with a list' 'check takes no --list' check -l v.lst b.xml
wrong 'check and count' 'check takes no --count' check --count b.xml
wrong 'pack with a list' 'pack takes no --list' pack -l v.lst
wrong 'two lists to unpack' 'unpack takes one list, and w.bin is a second' unpack v.bin w.bin
wrong 'explain two' 'explain takes one number, or none to list them' explain 1 2
wrong 'a path with a line feed' '--path takes one path, without a line feed' cut -e '/a
/b' b.xml
wrong 'explain 15' '15 is no number that is explained: 0 to 13, 20, 64, 66, 73 or 74' explain 15
wrong 'explain a word' 'two is no number that is explained: 0 to 13, 20, 64, 66, 73 or 74' explain two
wrong 'explain with options' 'explain takes no --json' explain --json 1
[ ! -e x ] || fault 'wrong usage' 'a file is made'

for words in '-e //v b.xml' '-ql v.lst b.xml' '-l none.lst --path //v b.xml' '-l v.lst b.xml' \
    '-lv.lst b.xml' '--list=v.lst b.xml' 'b.xml --list v.lst' '-l v.lst -o- b.xml' '-l v.lst --output=- b.xml'; do
    prints '<g><p><v></v></p></g>'
    # shellcheck disable=SC2086
    try "cut $words" 0 cut $words
done

# Paths of the command line: they follow the list, and a list whose last line is not ended is refused as it is without them.
prints '<g><v><n/></v></g>'
try 'two paths' 0 cut -e '//v #' -e //n h.xml
printf '/g' > open.lst
says 'open.lst and -e:1: 2: malformed line: "/g": a line ends in a line feed' '    /g' '      ^'
try 'a path behind an open line' 2 cut -l open.lst -e //v b.xml
says '-e:2: 2: malformed line: "v": a line begins with / or //' '    v' '    ^'
try 'a second path' 2 cut -e //v -e v b.xml
try 'a packed list and a path' 0 cut --packed -l v.bin -e //n h.xml -o two.xml
holds 'a packed list and a path' two.xml '<g><v><n></n></v></g>'
try 'a batch by a path' 0 batch -e //v -d by-path b.xml
holds 'a batch by a path' by-path/b.xml '<g><p><v></v></p></g>'
# Quiet: no message, and what is to be written is written.
prints '<g><p><v></v></p></g>'
try 'a quiet cut' 0 cut -q -l v.lst b.xml

# explains NUMBER FRONT LINES: the front of the text and how many lines it has.
explains() {
    ran=$((ran + 1)) got=0
    start explain "$1" > "$notes/printed" 2>&1 || got=$?
    status "explain $1" 0 "$got"
    printed=$(cat "$notes/printed")
    [ "${printed#"$1: $2"}" != "$printed" ] || fault "explain $1" "$printed"
    [ "$(wc -l < "$notes/printed")" = "$3" ] || fault "explain $1" 'number of lines'
}
explains 0 'written.' 7
explains 1 'the list has over 8,192 bytes.' 3
explains 2 'a line of the list is malformed;' 6
explains 3 'a line of the list is too large, or it is line 33;' 10
explains 4 'the document has over 16,777,216 bytes.' 11
explains 5 'the document is not in UTF-8,' 9
explains 6 'the document has a type, <!DOCTYPE;' 7
explains 7 'the document is not well-formed XML 1.0;' 4
explains 8 'the document is over a size;' 3
explains 9 'the output is shorter than the cut;' 6
explains 10 'the declaration of the document names another encoding than UTF-8;' 7
explains 11 'the bytes are no batch;' 4
explains 12 'of mending alone: no root tag is kept,' 5
explains 13 'the input is not the packed form of a sound list;' 6
explains 20 'under `covers`: both lists are sound,' 3
explains 64 'wrong usage.' 2
explains 66 "the list or the document can't be opened, or is a directory," 3
explains 73 "the output can't be created." 7
explains 74 'reading or writing failed' 2

ran=$((ran + 1))
start explain > "$notes/printed" 2>&1 || fault 'explain alone' 'status'
[ "$(sed -n 's/^ *\([0-9]*\)  .*/\1/p' "$notes/printed" | tr '\n' ' ')" = '0 1 2 3 4 5 6 7 8 9 10 11 12 13 20 64 66 73 74 ' ] ||
    fault 'explain alone' "$(cat "$notes/printed")"
grep -q '^ 7  not well-formed$' "$notes/printed" || fault 'explain alone' 'no meaning'

for words in '--version' 'version' '-V' 'cut -V' 'check none.xml --version' 'explain -qV'; do
    lines 'choughbell 0.4.0'
    # shellcheck disable=SC2086
    try "$words" 0 $words
done
# The man page and the header have the same.
ran=$((ran + 2))
grep -q '^\.TH CHOUGHBELL 1 [0-9-]* "choughbell 0\.4\.0"' "$root/host/man/choughbell.1" || fault 'version' 'of the man page'
head -n 1 "$root/host/include/choughbell.h" | grep -q 'choughbell 0\.4\.0' || fault 'version' 'of the header'
start --help > help 2>&1 || fault 'help' 'status'
[ "$(head -n 1 help)" = 'choughbell cuts XML by a list of paths, by a filter that is proved.' ] || fault 'help' "$(head -n 1 help)"
for words in '--help' 'help' '-h' 'cut --help' 'rows -h' 'check -h' 'batch -h' 'covers --help' 'mend --help' 'explain --help'; do
    cp help "$notes/prints"
    # shellcheck disable=SC2086
    try "$words" 0 $words
done
