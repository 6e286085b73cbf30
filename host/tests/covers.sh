# covers: document 02's examples, each refusal with its list, the lines that nothing covers, and the exit status for scripts.

# list NAME LINE..: a list of these lines.
list() {
    file=$1
    shift
    printf '%s\n' "$@" > "$file"
}

# covers NAME NARROW WIDE: yes.
covers() {
    lines yes
    try "covers: $1" 0 covers --narrow "$2" --wide "$3"
}

# uncovered NAME NARROW WIDE LINE: the narrow list has this one line.
uncovered() {
    lines "$2:1: no path of $3 covers \"$4\""
    try "covers: $1" 20 covers --narrow "$2" --wide "$3"
}

list gpv.lst /g/p/v
list gv.lst /g//v
list pv.lst //p/v
list near.lst /g/v
list star.lst '/a//*/b'
list rats.lst '/a/*//b'
covers 'a descendant step' gpv.lst v.lst
covers 'a child and a descendant step' gpv.lst gv.lst
covers 'a descendant and a child step' gpv.lst pv.lst
uncovered 'a child step too near' gpv.lst near.lst /g/p/v
uncovered 'the same elements' star.lst rats.lst '/a//*/b'
uncovered 'the same elements, the other way' rats.lst star.lst '/a/*//b'
uncovered 'the other way' v.lst gpv.lst //v
covers 'itself' gpv.lst gpv.lst
covers 'an empty list' none.lst gpv.lst
covers 'two empty lists' none.lst none.lst
uncovered 'by an empty list' v.lst none.lst //v

list tested.lst '/g/v[@k="x"]'
list other.lst '//v[@k="y"]'
covers 'a test by none' tested.lst v.lst
uncovered 'a test by another' tested.lst other.lst '/g/v[@k="x"]'
list self.lst /g/self::g
list marked.lst '/g/self::g #'
covers 'the same path, marked' self.lst marked.lst
uncovered 'the same path, not marked' marked.lst self.lst '/g/self::g #'

list many.lst /g/p/v '/g/v #' //w /v
lines 'many.lst:2: no path of v.lst covers "/g/v #"' 'many.lst:3: no path of v.lst covers "//w"'
try 'covers: each line is named' 20 covers --narrow many.lst --wide v.lst
try 'covers: quietly' 20 covers --narrow many.lst --wide v.lst --quiet
try 'covers: quietly, yes' 0 covers --narrow gpv.lst --wide v.lst -q
lines '{"number":0,"second":0,"third":0,"meaning":"not covered","uncovered":[2,3]}'
try 'covers: json' 20 covers --narrow many.lst --wide v.lst --json
lines '{"number":0,"second":1,"third":0,"meaning":"covered","uncovered":[]}'
try 'covers: json, yes' 0 covers --json --narrow gpv.lst --wide v.lst
input=gpv.lst
lines yes
try 'covers: standard input' 0 covers --narrow - --wide v.lst

# After a yes, the cut of the wide cut is the cut of the master.
list hamlets.lst '//hamlet #' //lake
list communes.lst '/gazetteer//commune/hamlet #'
covers 'the list of a client' communes.lst hamlets.lst
try 'covers: the cut of the client' 0 cut -l hamlets.lst "$root/examples/gazetteer.xml" -o client.xml
try 'covers: from the cut' 0 cut -l communes.lst client.xml -o from-client.xml
try 'covers: from the master' 0 cut -l communes.lst "$root/examples/gazetteer.xml" -o from-master.xml
same 'covers: both cuts' from-master.xml from-client.xml

# Refusals: the narrow list is judged first.
list bad.lst //v 'v w'
front='a line begins with / or //'
says "bad.lst:2: 2: malformed line: \"v w\": $front" '    v w' '    ^'
try 'covers: a narrow line' 2 covers --narrow bad.lst --wide long.lst
says "bad.lst:2: 2: malformed line: \"v w\": $front" '    v w' '    ^'
try 'covers: a wide line' 2 covers --narrow none.lst --wide bad.lst
says 'long.lst: 1: list over 8,192 bytes: it has 8,193'
try 'covers: a wide list too long' 1 covers --narrow v.lst --wide long.lst
hint="\"there\":\"v w\",\"hint\":\"$front\""
lines "{\"number\":2,\"second\":2,\"third\":1,\"meaning\":\"malformed line\",\"file\":\"bad.lst\",\"line\":2,\"column\":1,$hint}"
try 'covers: json of a narrow line' 2 covers --narrow bad.lst --wide bad.lst --json
lines "{\"number\":2,\"second\":2,\"third\":2,\"meaning\":\"malformed line\",\"file\":\"bad.lst\",\"line\":2,\"column\":1,$hint}"
try 'covers: json of a wide line' 2 covers --narrow v.lst --wide bad.lst --json
says 'choughbell: absent.lst: No such file or directory'
try 'covers: no list' 66 covers --narrow absent.lst --wide v.lst

usage 'covers wants two lists: --narrow LIST --wide LIST'
try 'covers: one list' 64 covers --narrow v.lst
usage 'covers takes no --list'
try 'covers: a list of another command' 64 covers --narrow v.lst --wide v.lst -l v.lst
usage "the two lists can't both come from the standard input"
try 'covers: two times standard input' 64 covers --narrow - --wide /dev/stdin
usage 'cut takes no --narrow'
try 'covers: options of its own' 64 cut -l v.lst --narrow v.lst b.xml
