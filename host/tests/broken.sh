# Output that breaks off, runs that are killed, and files that may not be read or written. The old file always stays.
{ printf '<g>' && yes '<v/>' | head -n 100000 | tr -d '\n' && printf '</g>'; } > wide.xml

says 'choughbell: /dev/full: No space left on device'
try 'a full device' 74 cut -l v.lst wide.xml -o /dev/full
got=0 ran=$((ran + 1))
start cut -l v.lst wide.xml > /dev/full 2> "$notes/said" || got=$?
status 'a full standard output' 74 "$got"
says 'choughbell: standard output: No space left on device'
same 'a full standard output' "$notes/says" "$notes/said"
fresh

# The cut is longer than a pipe holds, so the write lasts until the reader has gone.
ran=$((ran + 1))
{ got=0 && { start cut -l v.lst wide.xml 2> "$notes/said" || got=$?; } && echo $got > "$notes/got"; } | :
status 'a broken pipe' 74 "$(cat "$notes/got")"
same 'a broken pipe' "$notes/says" "$notes/said"
mkfifo broken
: < broken & reader=$!
try 'a broken pipe as output' 74 cut -l v.lst wide.xml -o broken
wait $reader

# Killed while it waits for the rest of the document. It is started directly, so that the signal is for the program and for no shell.
printf old > kept.xml
mkfifo slow
ran=$((ran + 1)) got=0
# shellcheck disable=SC2086
$run "$program" cut -l v.lst -o kept.xml < slow & killed=$!
exec 9> slow
printf '<g><v/>' >&9
kill -TERM $killed
wait $killed 2> /dev/null || got=$?
exec 9>&-
status 'killed' 143 "$got"
holds 'killed' kept.xml old

# Ended by a signal while the cut is written, which the temporary file shows: it is gone, and the old file stays, here an empty one. A run
# that had written before the signal came is made again. interrupt NAME: STARTED is what starts the program.
{ printf '<g>' && yes '<v/>' | head -n 4000000 | tr -d '\n' && printf '</g>'; } > widest.xml
interrupt() {
    tries=0 got=0
    while [ "$got" = 0 ] && [ $tries -lt 30 ]; do
        tries=$((tries + 1))
        : > kept.xml
        # shellcheck disable=SC2086
        $started $run "$program" cut -l v.lst widest.xml -o kept.xml & killed=$!
        until [ -e .choughbell-$killed-0 ] || [ -s kept.xml ]; do :; done
        kill -"$1" $killed
        wait $killed 2> /dev/null || got=$?
        [ ! -s kept.xml ] || got=0
        [ -z "${once-}" ] || break
    done
}
for signal in HUP:129 INT:130 TERM:143; do
    ran=$((ran + 1)) started='env --default-signal=HUP,INT,TERM'
    interrupt ${signal%:*}
    status "ended by ${signal%:*}" "${signal#*:}" "$got"
    holds "ended by ${signal%:*}" kept.xml ''
done
# One that is ignored stays ignored.
ran=$((ran + 1)) started='env --ignore-signal=HUP' once=yes
interrupt HUP
once=
status 'a signal that is ignored' 0 "$got"
[ "$(wc -c < kept.xml)" = 28000007 ] || fault 'a signal that is ignored' 'no cut'
rm -f widest.xml
printf old > kept.xml

# Standard streams that are closed. An emulator has files of its own under their numbers.
if [ -z "$run" ]; then
    # closed NAME STATUS MESSAGE: the run that is just done.
    closed() {
        ran=$((ran + 1))
        status "$1" "$2" "$got"
        [ "$(cat "$notes/said")" = "choughbell: $3: Bad file descriptor" ] || fault "$1" "$(cat "$notes/said")"
        got=0
    }
    got=0
    start cut -l v.lst b.xml >&- 2> "$notes/said" || got=$?
    closed 'a closed standard output' 74 'standard output'
    start --version >&- 2> "$notes/said" || got=$?
    closed 'a closed standard output, version' 74 'standard output'
    start check <&- 2> "$notes/said" || got=$?
    closed 'a closed standard input' 66 'standard input'
    start cut -l v.lst b.xml -o /dev/fd/0 <&- 2> "$notes/said" || got=$?
    closed 'a closed standard input as output' 74 /dev/fd/0
    ran=$((ran + 3))
    start cut -l v.lst b.xml --json > "$notes/printed" 2>&- || got=$?
    status 'a closed standard error, json' 74 "$got"
    printf '<g><n>Aar' > aar.xml
    got=0 && start mend aar.xml > "$notes/printed" 2>&- || got=$?
    status 'a closed standard error, mend' 74 "$got"
    got=0 && start cut -l v.lst b.xml > "$notes/printed" 2>&- || got=$?
    status 'a closed standard error that is not used' 0 "$got"
fi

# Stopped by the system while it writes: a file may have 4,096 bytes. The first run may go on and clean up; the second is killed.
ran=$((ran + 2)) got=0
(trap '' XFSZ && ulimit -f 8 && start cut -l v.lst wide.xml -o kept.xml) 2> "$notes/said" || got=$?
status 'a file too large' 74 "$got"
says 'choughbell: kept.xml: File too large'
same 'a file too large' "$notes/says" "$notes/said"
fresh
holds 'a file too large' kept.xml old
got=0
# shellcheck disable=SC3045
(ulimit -c 0 && ulimit -f 8 && start cut -l v.lst wide.xml -o kept.xml) 2> /dev/null || got=$?
[ "$got" -gt 128 ] || fault 'killed while it writes' "status $got"
rm -f .choughbell-*
holds 'killed while it writes' kept.xml old

# A temporary file that a killed run with the same process number has left is no hindrance, and stays.
ran=$((ran + 1)) got=0
# shellcheck disable=SC2016,SC2086
sh -c 'printf left > ".choughbell-$$-0" && exec "$@"' sh $run "$program" cut -l v.lst b.xml -o kept.xml || got=$?
status 'a temporary file that is left' 0 "$got"
[ "$(cat .choughbell-*)" = left ] || fault 'a temporary file that is left' 'is gone'
rm -f .choughbell-*
holds 'a temporary file that is left' kept.xml '<g><p><v></v></p></g>'

says 'choughbell: /proc/cut.xml: no temporary file beside it: No such file or directory'
try 'a folder without files' 73 cut -l v.lst b.xml -o /proc/cut.xml

# What a user may not read or write, root may: so these are run as nobody, where that can be done.
printf old > shut.xml
mkdir -p shut open
printf old > shut/old.xml
printf old > open/old.xml
chmod 777 open
chmod 666 shut/old.xml
chmod 444 open/old.xml
chmod 000 shut.xml
chmod 555 shut
in_place="; -o - and the shell's > write into it, and lose what it holds first"
nobody=
[ "$(id -u)" != 0 ] || nobody='setpriv --reuid 65534 --regid 65534 --clear-groups'
# shellcheck disable=SC2086
if $nobody $run "$program" --version > /dev/null 2>&1; then
    user=$nobody
    says 'choughbell: shut.xml: Permission denied'
    try 'an unreadable document' 66 check shut.xml
    user=$nobody
    says 'choughbell: shut.xml: Permission denied'
    try 'an unreadable list' 66 cut -l shut.xml b.xml
    user=$nobody
    says 'choughbell: shut/new.xml: no temporary file beside it: Permission denied'
    try 'an unwritable folder' 73 cut -l v.lst b.xml -o shut/new.xml
    user=$nobody
    says "choughbell: shut/old.xml: no temporary file beside it: Permission denied$in_place"
    try 'a file in an unwritable folder' 73 cut -l v.lst b.xml -o shut/old.xml
    user=$nobody
    says 'choughbell: open/old.xml: Permission denied'
    try 'an unwritable file' 73 cut -l v.lst b.xml -o open/old.xml
    holds 'an unwritable file' open/old.xml old
    # Another's file that may be written: in a sticky folder it can't be replaced, elsewhere it changes hands, which is told.
    mkdir -p sticky
    printf old > sticky/old.xml
    chmod 666 sticky/old.xml && chmod 1777 sticky
    if [ "$(id -u)" = 0 ]; then
        user=$nobody
        says "choughbell: sticky/old.xml: Operation not permitted: its folder lets nobody replace another's file$in_place"
        try 'a file in a sticky folder' 73 cut -l v.lst b.xml -o sticky/old.xml
        holds 'a file in a sticky folder' sticky/old.xml old
        printf old > open/root.xml
        chmod 646 open/root.xml
        user=$nobody
        says 'choughbell: open/root.xml: its owner, 0, and its group, 0, could not be kept'
        try 'a file that changes hands' 0 cut -l v.lst b.xml -o open/root.xml
        # Another group gets the rights that all others had.
        got=$(stat -c '%u:%g %a' open/root.xml)
        [ "$got" = '65534:65534 666' ] || fault 'a file that changes hands' "$got"
        printf old > open/group.xml
        chown 65534:0 open/group.xml && chmod 640 open/group.xml
        user=$nobody
        says 'choughbell: open/group.xml: its group, 0, could not be kept'
        try 'a file that changes its group' 0 cut -l v.lst b.xml -o open/group.xml
        got=$(stat -c '%u:%g %a' open/group.xml)
        [ "$got" = '65534:65534 600' ] || fault 'a file that changes its group' "$got"
        chown 0:0 open/root.xml && chmod 666 open/root.xml
        user=$nobody
        try 'a file that changes hands, quietly' 0 cut -q -l v.lst b.xml -o open/root.xml
    fi
else
    echo 'choughbell: left out: files that may not be read, since root may read all and no run as nobody can be started here'
fi
chmod 755 shut
holds 'a file in an unwritable folder' shut/old.xml old

# Root keeps the owner and the group of a file, with its permissions.
if [ "$(id -u)" = 0 ]; then
    printf old > owned.xml
    chown 65534:65533 owned.xml && chmod 4751 owned.xml
    try "another's file" 0 cut -l v.lst b.xml -o owned.xml
    holds "another's file" owned.xml '<g><p><v></v></p></g>'
    [ "$(stat -c '%u:%g %a' owned.xml)" = '65534:65533 4751' ] || fault "another's file" "$(stat -c '%u:%g %a' owned.xml)"
fi
# A file that is mounted by itself, where that can be done.
printf old > mounted.xml
printf old > under.xml
if mount --bind under.xml mounted.xml 2> "$notes/mount"; then
    says "choughbell: mounted.xml: Device or resource busy: it is mounted by itself and can't be replaced$in_place"
    try 'a file that is mounted' 73 cut -l v.lst b.xml -o mounted.xml
    holds 'a file that is mounted' mounted.xml old
    umount mounted.xml
fi

# On a terminal a long run says that it goes on, on a line that it takes back, and nothing of that with --quiet or where there is none.
if [ -z "$run" ] && command -v script > "$notes/found"; then
    ran=$((ran + 3))
    repeat 32 "//*$(repeat 15 /self::*)[@k=\"x\"]
" > slow.lst
    { printf '<g>' && yes '<v k="y"/>' | head -n 200000 | tr -d '\n' && printf '</g>'; } > slow.xml
    seen() {
        script -qec "'$program' cut --plain $1 -l slow.lst slow.xml -o slow.cut $2" "$notes/typed" < /dev/null > "$notes/printed" || :
    }
    # More than this is said in the end: the lines that select nothing.
    seen '' ''
    tr '\r' '\n' < "$notes/printed" | grep -q '^cutting, 1 s' || fault 'a long run on a terminal' "$(head -c 300 "$notes/printed")"
    grep -q "$(printf '\r\033\\[K')" "$notes/printed" || fault 'a long run on a terminal' 'the line is not taken back'
    seen -q ''
    [ ! -s "$notes/printed" ] || fault 'a long run on a terminal, quietly' "$(head -c 300 "$notes/printed")"
    seen '' '2> slow.said'
    ! grep -q cutting "$notes/printed" slow.said || fault 'a long run elsewhere' "$(head -c 300 slow.said)"
    rm -f slow.xml
fi
