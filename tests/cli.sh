#!/bin/bash
# Runs the built program as a user would. Ends with 'N passed, M failed', and with 0 only where none failed.
cd "$(dirname "${BASH_SOURCE[0]}")/.." || exit 1
passed=0
failed=0
work=$(mktemp -d)
trap 'umount "$work/small" 2>/dev/null; rm -rf "$work"' EXIT

./mtn --version >/dev/null || { echo "tests/cli.sh: the program was not built" >&2; echo "0 passed, 1 failed"; exit 1; }

# verdict NAME TEST..: counts one row.
verdict() {
    local name=$1
    shift
    if "$@"; then passed=$((passed + 1)); else failed=$((failed + 1)); echo "FAILED: $name" >&2; fi
}

# row NAME STATUS INPUT OUTPUT WORD..: runs mtn with the words over the input, given in printf's form.
row() {
    local name=$1 status=$2 input=$3 output=$4 ended
    shift 4
    printf "$input" | ./mtn "$@" >"$work/out" 2>"$work/err"
    ended=$?
    printf "$output" >"$work/want"
    verdict "$name: status $ended, output $(head -c 200 "$work/out")" \
        test "$ended" = "$status" -a ! -s "$work/err" -a "$(cmp "$work/out" "$work/want" 2>&1)" = ""
}

# file_row NAME STATUS FILE OUTPUT WORD..: the same over a file.
file_row() {
    local name=$1 status=$2 file=$3 output=$4 ended
    shift 4
    ./mtn "$@" <"$file" >"$work/out" 2>"$work/err"
    ended=$?
    printf "$output" >"$work/want"
    verdict "$name: status $ended, output $(head -c 200 "$work/out")" \
        test "$ended" = "$status" -a ! -s "$work/err" -a "$(cmp "$work/out" "$work/want" 2>&1)" = ""
}

# runs PID: waits, ten seconds at most, until what was started as ./mtn is the program itself.
runs() {
    local n
    for n in $(seq 200); do
        [ "$(readlink "/proc/$1/exe")" = "$PWD/target/mtn" ] && return 0
        sleep 0.05
    done
    return 1
}
# opens PID FILE: waits until it has the file open.
opens() {
    local n
    for n in $(seq 200); do
        ls -l "/proc/$1/fd" 2>/dev/null | grep -qF "$2" && return 0
        sleep 0.05
    done
    return 1
}

abc=a9993e364706816aba3e25717850c26c9cd0d89d
nothing=da39a3ee5e6b4b0d3255bfef95601890afd80709

row "the id of abc" 0 abc "$abc\n" - put_file
row "the id of nothing" 0 '' "$nothing\n" - put_file
row "an end of options is dropped" 0 abc "$abc\n" - put_file --
row "a store in memory begins empty" 1 '' "refused UnknownFile $abc\n" - get_file "$abc"
row "and has no revision" 1 '' "refused UnknownRevision $abc\n" - get_revision "$abc"
row "nor a manifest" 1 '' "refused UnknownRevision $abc\n" - get_manifest_of "$abc"
row "nor a roster" 1 '' "refused UnknownRevision $abc\n" - get_roster "$abc"
row "nor marks" 1 '' "refused UnknownRevision $abc\n" - get_content_changed "$abc" a/b
row "nor a merge" 1 '' "refused UnknownRevision $abc\n" - merge "$abc" "$nothing"
row "also with resolutions" 1 'no text' "refused UnknownRevision $nothing\n" - merge --resolve "$nothing" "$abc"
row "nor conflicts" 1 '' "refused UnknownRevision $abc\n" - show_conflicts "$abc" "$nothing"
row "nor packets" 1 '' "refused UnknownRevision $abc\n" - packets "$abc" "$nothing"
row "no packets are read" 0 '' 'files 0\nrevisions 0\ncerts 0\n' - read
row "a file is read from its packet" 0 "[fdata $abc]\nYWJj\n[end]\n" 'files 1\nrevisions 0\ncerts 0\n' - read
row "nor a place for its root" 1 '' "refused UnknownRevision $abc\n" - get_corresponding_path "$abc" '' "$nothing"

for query in parents children ancestors descendents common_ancestors erase_ancestors toposort ancestry_difference; do
    row "$query of an unknown revision" 1 '' "refused UnknownRevision $abc\n" - $query "$abc"
done
for query in ancestors descendents common_ancestors erase_ancestors toposort ancestry_difference; do
    row "$query of two: the first is refused" 1 '' "refused UnknownRevision $nothing\n" - $query "$nothing" "$abc"
done
for query in erase_ancestors toposort leaves roots graph; do
    row "$query of nothing" 0 'unread' '' - $query
done

for words in '' 'head' 'heads' 'put_file x' 'put_file --x' 'put_file --x=' 'put_file --resolve' 'put_file -- x' 'put_file -- --' 'get_file' 'get_revision' 'get_revision ABC' 'get_manifest_of' 'get_manifest_of ABC' "get_manifest_of $abc x" 'get_roster' 'get_roster ABC' "get_roster $abc x" "get_content_changed $abc" "get_content_changed $abc a//b" "get_content_changed $abc ./a" "get_content_changed a $abc" "get_corresponding_path $abc a" "get_corresponding_path $abc a/.. $abc" "get_corresponding_path $abc a ABC" "get_revision $abc $abc" 'get_file ABC' "get_file $abc x" "get_file $abc --" "get_file --x= $abc" 'get_file --' 'PUT_FILE' '-- put_file' parents "parents $abc $abc" children ancestors descendents common_ancestors ancestry_difference 'toposort x' "leaves $abc" "roots $abc" "graph $abc" merge "merge $abc" "merge $abc $abc $abc" "merge $abc ABC" "merge --resolve=yes $abc $abc" "merge --x $abc $abc" "merge --resolve --resolve $abc $abc" "merge $abc $abc --resolve" 'merge --resolve' show_conflicts "show_conflicts $abc" "show_conflicts ABC $abc" "show_conflicts --resolve $abc $abc" "get_file --resolve $abc" packets 'packets ABC' "packets $abc x" "packets --resolve $abc" 'read x' 'read --resolve' generate 'generate 0' 'generate 01' 'generate 2001' 'generate -1' 'generate 4 4' 'generate --resolve 4' 'check x' 'check --all' 'migrate x' 'migrate --resolve'; do
    # shellcheck disable=SC2086
    row "outside the grammar: '$words'" 2 'never read' 'usage\n' - $words
done
row "an end of options before an id" 1 '' "refused UnknownFile $abc\n" - get_file -- "$abc"
row "no store" 2 '' 'usage\n'
row "a store without a name" 2 '' 'usage\n' '' get_file "$abc"
row "words that are not UTF-8" 2 '' 'usage\n' - put_file "$(printf '\377')"
row "a command without a payload leaves its input" 1 'unread' "refused UnknownFile $abc\n" - get_file "$abc"

head -c 67108864 /dev/zero >"$work/most"
file_row "64 MiB are kept" 0 "$work/most" "$(sha1sum <"$work/most" | cut -d' ' -f1)\n" - put_file
printf x >>"$work/most"
file_row "one byte more is refused" 1 "$work/most" 'refused TextTooLong 67108865\n' - put_file
file_row "one byte more of a revision is refused" 1 "$work/most" 'refused TextTooLong 67108865\n' - put_revision
head -c 268435456 /dev/zero >"$work/input"
file_row "the longest input is read" 1 "$work/input" 'refused TextTooLong 268435456\n' - put_file
printf x >>"$work/input"
file_row "one byte more of input is too long" 9 "$work/input" '' - put_file

# A standard input that cannot be read, and a standard output that takes nothing.
./mtn - put_file <&- >"$work/out" 2>"$work/err"
verdict "a closed input is a fault" test $? = 4 -a ! -s "$work/out" -a ! -s "$work/err"
if [ -w /dev/full ]; then
    printf abc | ./mtn - put_file >/dev/full 2>"$work/err"
    verdict "a full output is a fault" test "${PIPESTATUS[1]}" = 5 -a ! -s "$work/err"
fi

# ---- a store in a file

store=$work/s.mtn
row "a file is kept in a file" 0 abc "$abc\n" "$store" put_file
row "and found again" 0 '' 'abc' "$store" get_file "$abc"
row "and kept once" 0 abc "$abc\n" "$store" put_file
row "a file with no bytes is found" 0 '' "$nothing\n" "$store" put_file
row "with no bytes" 0 '' '' "$store" get_file "$nothing"
row "another is not" 1 '' "refused UnknownFile 86f7e437faa5a7fce15d1ddcb9eaeaea377667b8\n" "$store" get_file 86f7e437faa5a7fce15d1ddcb9eaeaea377667b8
row "words outside the grammar make no store" 2 '' 'usage\n' "$work/none.mtn" head
verdict "no store was made" test ! -e "$work/none.mtn"

# asks STORE SQL ANSWER: what sqlite3 says of the records.
asks() { [ "$(sqlite3 "$1" "$2")" = "$3" ]; }
verdict "sqlite3 finds the store whole" asks "$store" 'PRAGMA integrity_check' ok
verdict "sqlite3 reads the same file" asks "$store" "SELECT body FROM kept WHERE kind = 2 AND name = x'$abc'" abc
verdict "sqlite3 reads the number of revisions" asks "$store" "SELECT hex(body) FROM kept WHERE kind = 1 AND name = CAST('count' AS BLOB)" 0000000000000000
verdict "there are four records" asks "$store" 'SELECT count(*) FROM kept' 4
head -c 67108864 /dev/urandom >"$work/most"
file_row "64 MiB go into a file" 0 "$work/most" "$(sha1sum <"$work/most" | cut -d' ' -f1)\n" "$work/big.mtn" put_file
./mtn "$work/big.mtn" get_file "$(sha1sum <"$work/most" | cut -d' ' -f1)" >"$work/out"
verdict "and come out" cmp -s "$work/out" "$work/most"
rm -f "$work"/big.mtn* "$work/most" "$work/input"

# Little memory.
little() { (ulimit -v 150000; ./mtn "$store" put_file <"$work/zeros" >"$work/out" 2>"$work/err"); [ $? = 7 ] && [ ! -s "$work/out" ] && [ ! -s "$work/err" ]; }
head -c 67108864 /dev/zero >"$work/zeros"
verdict "want of memory has its status" little
rm -f "$work/zeros"
verdict "and leaves the store" asks "$store" 'SELECT count(*) FROM kept' 4

# A damaged store, made by sqlite3.
cp "$store" "$work/bad.mtn"
sqlite3 "$work/bad.mtn" "UPDATE kept SET body = x'010203' WHERE kind = 1 AND name = CAST('count' AS BLOB)"
row "a bad record is shown" 8 x 'damaged 1 636f756e74 010203\n' "$work/bad.mtn" put_file
sqlite3 "$work/bad.mtn" "UPDATE kept SET body = x'0000000000000000' WHERE kind = 1 AND name = CAST('count' AS BLOB); DELETE FROM kept WHERE name = CAST('version' AS BLOB)"
row "a missing record is shown" 8 x 'missing 1 76657273696f6e\n' "$work/bad.mtn" put_file
cp "$store" "$work/astray.mtn"
astray=${abc}000000066272616e63681111111111111111111111111111111111111111000000046d61696e00000000
sqlite3 "$work/astray.mtn" "INSERT INTO kept VALUES (8, x'$astray', x'')"
row "a certificate of no revision is shown where heads are asked" 8 '' "damaged 8 $astray \n" "$work/astray.mtn" heads main
row "and where branches are" 8 '' "damaged 8 $astray \n" "$work/astray.mtn" branches
row "and no file is" 0 '' 'abc' "$work/astray.mtn" get_file "$abc"

# What is no store is left as it is.
table='CREATE TABLE kept (kind INTEGER NOT NULL, name BLOB NOT NULL, body BLOB NOT NULL, PRIMARY KEY (kind, name)) STRICT'
mkdir "$work/folder"
row "a folder is no store" 6 x '' "$work/folder" put_file
printf 'a text that is long enough to look at, and no database at all\n' >"$work/text"
cp "$work/text" "$work/text.before"
row "a text is no store" 6 x '' "$work/text" put_file
verdict "the text is as it was" cmp -s "$work/text" "$work/text.before"
for made in 'CREATE TABLE note (id INTEGER PRIMARY KEY)' 'CREATE VIEW seen AS SELECT 1' 'CREATE TABLE KEPT (a INTEGER) STRICT' "${table/body BLOB NOT NULL/body BLOB}"; do
    rm -f "$work"/other.db*
    sqlite3 "$work/other.db" "$made"
    row "another database is no store: $made" 6 x '' "$work/other.db" put_file
    verdict "it is as it was: $made" asks "$work/other.db" 'SELECT sql FROM sqlite_schema' "$made"
done
sqlite3 "$work/alone.mtn" "$table"
row "a database that has the table alone becomes a store" 0 abc "$abc\n" "$work/alone.mtn" put_file
cp "$work/alone.mtn" "$work/folded.mtn"
row "what was kept stands in the one file, without the log of changes" 0 '' abc "$work/folded.mtn" get_file "$abc"
head -c 5000 "$store" >"$work/cut.mtn"
row "a database that is cut off is no store" 6 '' '' "$work/cut.mtn" check
ln "$work/bad.mtn" "$work/second.mtn"
row "a file with a second name is no store" 6 '' '' "$work/second.mtn" check
ln -s "$work/nowhere" "$work/dangling.mtn"
row "a link to nothing is no store" 6 x '' "$work/dangling.mtn" put_file
: >"$work/empty.mtn"
row "an empty file becomes a store" 0 abc "$abc\n" "$work/empty.mtn" put_file

# A second program at a locked store.
mkfifo "$work/pipe"
./mtn "$store" put_file <"$work/pipe" >"$work/first" 2>&1 &
first=$!
exec 8>"$work/pipe"
verdict "a first program opens the store" opens "$first" "$store"
sleep 0.5
row "a locked store is a fault" 6 '' '' "$store" get_file "$abc"
sqlite3 "$store" ".backup '$work/backup.mtn'" 2>/dev/null
verdict "a backup finds it locked" test $? != 0
printf 'later' >&8
exec 8>&-
wait "$first"
verdict "the first program ends well" test $? = 0 -a "$(cat "$work/first")" = "$(printf later | sha1sum | cut -d' ' -f1)"
verdict "a backup is made behind it" sqlite3 "$store" ".backup '$work/backup.mtn'"
row "and has what was kept" 0 '' later "$work/backup.mtn" get_file "$(printf later | sha1sum | cut -d' ' -f1)"

# meanwhile COMMAND..: runs it while a first program, over a store that is missing, waits for its input; the status of the first.
meanwhile() {
    ./mtn "$work/late.mtn" put_file <"$work/pipe" >"$work/first" 2>&1 &
    first=$!
    exec 8>"$work/pipe"
    runs "$first"
    sleep 0.5
    "$@" </dev/null >"$work/out"
    printf 'later' >&8
    exec 8>&-
    wait "$first"
}
later=$(printf later | sha1sum | cut -d' ' -f1)
meanwhile ./mtn "$work/late.mtn" put_file
verdict "a store that another program made meanwhile is a fault" test $? = 6 -a ! -s "$work/first"
row "and has what that one kept" 0 '' '' "$work/late.mtn" get_file "$nothing"
row "and no more" 1 '' "refused UnknownFile $later\n" "$work/late.mtn" get_file "$later"
rm -f "$work"/late.mtn*
meanwhile sqlite3 "$work/late.mtn" "$table"
verdict "a table without records that was made meanwhile is taken" test $? = 0 -a "$(cat "$work/first")" = "$later"
row "and has the file" 0 '' later "$work/late.mtn" get_file "$later"
rm -f "$work"/late.mtn*
meanwhile sqlite3 "$work/late.mtn" 'CREATE TABLE note (a INTEGER)'
verdict "a table of others that was made meanwhile is a fault" test $? = 6 -a ! -s "$work/first"
verdict "and is as it was" asks "$work/late.mtn" 'SELECT sql FROM sqlite_schema' 'CREATE TABLE note (a INTEGER)'

# A full disk.
full() {
    mkdir "$work/small"
    if [ "$(id -u)" = 0 ] && mount -t tmpfs -o size=512k none "$work/small" 2>/dev/null; then
        mounted=yes
        limit=unlimited
    else
        mounted=no
        limit=512
    fi
    printf abc | ./mtn "$work/small/s.mtn" put_file >"$work/out" || return 1
    head -c 2000000 /dev/urandom >"$work/two"
    (
        trap '' XFSZ
        ulimit -f "$limit"
        ./mtn "$work/small/s.mtn" put_file <"$work/two" >"$work/out"
    )
    ended=$?
    kept=$(./mtn "$work/small/s.mtn" get_file "$abc")
    files=$(sqlite3 "$work/small/s.mtn" 'SELECT count(*) FROM kept WHERE kind = 2')
    [ "$mounted" = no ] || umount "$work/small"
    [ "$ended" = 6 ] && [ ! -s "$work/out" ] && [ "$kept" = abc ] && [ "$files" = 1 ]
}
verdict "a full disk is a fault, and the store is as it was" full

# Killed at a moment of a run of puts, each by the program itself: the store has a front of the commands behind a first file,
# with every one that was answered. The program opens what was left before sqlite3 does.
killed() {
    local killed=$work/killed.mtn answered n
    rm -f "$killed"*
    ./mtn "$killed" put_file </dev/null >"$work/out" || return 1
    : >"$work/answered"
    setsid bash -c 'for i in $(seq 100); do printf "$i" | target/mtn "$1" put_file >>"$2"; done' _ "$killed" "$work/answered" 2>/dev/null &
    local group=$!
    until [ -s "$work/answered" ]; do sleep 0.01; done
    sleep "0.$(printf '%03d' $((RANDOM % 500)))"
    kill -9 -- -"$group" 2>/dev/null
    wait "$group" 2>/dev/null
    while kill -0 -- -"$group" 2>/dev/null; do sleep 0.01; done
    answered=$(wc -l <"$work/answered")
    [ "$answered" = 100 ] || cut_off=$((cut_off + 1))
    n=0
    while [ "$n" -lt 100 ] && [ "$(./mtn "$killed" get_file "$(printf $((n + 1)) | sha1sum | cut -d' ' -f1)")" = "$((n + 1))" ]; do n=$((n + 1)); done
    [ "$n" -ge "$answered" ] && asks "$killed" 'SELECT count(*) FROM kept WHERE kind = 2' "$((n + 1))" && asks "$killed" 'PRAGMA integrity_check' ok
}
cut_off=0
for round in $(seq 20); do verdict "killed, round $round" killed; done
verdict "most rounds were killed on their way: $cut_off of 20" test "$cut_off" -ge 10

# ---- a store that is missing, or may not be written

asked="get_file $abc;get_revision $abc;get_manifest_of $abc;get_roster $abc;get_content_changed $abc a;get_corresponding_path $abc a $abc;show_conflicts $abc $abc;parents $abc;children $abc;ancestors $abc;descendents $abc;common_ancestors $abc;erase_ancestors;toposort;ancestry_difference $abc;leaves;roots;graph;certs $abc;heads main;branches;packets $abc;check"

# makes_none WORD..: over a missing store the answer is the same as over an empty one, and no file is made. The input is $work/in.
makes_none() {
    local over_empty over_missing
    over_empty=$(./mtn - "$@" <"$work/in"; echo "status $?")
    over_missing=$(./mtn "$work/missing.mtn" "$@" <"$work/in"; echo "status $?")
    [ "$over_empty" = "$over_missing" ] && ! compgen -G "$work/missing.mtn*" >/dev/null
}
# makes WORD..: the answer is that of success, as over an empty store, and the file has a record.
makes() {
    local over_empty over_missing
    over_empty=$(./mtn - "$@" <"$work/in"; echo "status $?")
    over_missing=$(./mtn "$work/missing.mtn" "$@" <"$work/in"; echo "status $?")
    [ "$over_empty" = "$over_missing" ] && [ "${over_missing##*status }" = 0 ] && asks "$work/missing.mtn" 'SELECT count(*) > 0 FROM kept' 1
    local held=$?
    rm -f "$work"/missing.mtn*
    return $held
}
: >"$work/in"
while IFS= read -r words; do
    # shellcheck disable=SC2086
    verdict "a missing store: $words" makes_none $words
done <<<"${asked//;/$'\n'}"
# Commands that keep nothing this time, each behind its input.
while IFS='|' read -r input words; do
    printf "$input" >"$work/in"
    # shellcheck disable=SC2086
    verdict "a missing store: $words, over '$input'" makes_none $words
done <<END
|put_revision
no text|put_revision
format_version "1"|put_revision
|merge $abc $nothing
no text|merge --resolve $abc $nothing
|merge_heads --author=a --date=d --key=$abc main
no text|merge_heads --author=a --date=d --key=$abc --resolve main
|cert --key=$abc $abc branch main
|cert --key=$abc --sig=x $abc branch main
no text|commit --author=a --branch=b --changelog=c --date=d --key=$abc
|key $abc [
|read
x|read
[fdata $abc]\\nYWJ\\n[end]\\n|read
[fdata $abc]\\nYWJj\\n[end]\\n[rdata $abc]\\nYWJj\\n[end]\\n|read
|migrate
no text|migrate
|stdio
l6:leavese l5:graphe l8:branchese l5:checke|stdio
l8:get_file40:${abc}e l5:merge40:${abc}40:${nothing}e l12:put_revision7:no texte l4:read1:xe l4:read0:e|stdio
l8:put_file3:abce l6:leaves|stdio
END
head -c 67108865 /dev/zero >"$work/in"
verdict "a missing store: put_file of too many bytes" makes_none put_file
verdict "and put_revision" makes_none put_revision
while IFS='|' read -r input words; do
    printf "$input" >"$work/in"
    # shellcheck disable=SC2086
    verdict "a missing store is made: $words, over '$input'" makes $words
done <<END
|put_file
abc|put_file
|key $abc me
[fdata $abc]\\nYWJj\\n[end]\\n|read
|generate 1
l6:leavese l4:read1:xe l8:put_file3:abce l8:get_file40:${abc}e|stdio
END
rm -f "$work/in"
row "a missing folder is asked too" 0 '' '' "$work/no/such/folder.mtn" leaves
row "and nothing is kept there" 6 x '' "$work/no/such/folder.mtn" put_file
row "a refusal is answered there" 1 '' 'refused BadOrder 1\n' "$work/no/such/folder.mtn" put_revision
row "a file makes a missing store" 0 abc "$abc\n" "$work/made.mtn" put_file
row "a refused merge makes none" 1 '' "refused UnknownRevision $abc\n" "$work/unmerged.mtn" merge "$abc" "$abc"
row "nor does a refused certificate" 1 '' "refused UnknownRevision $abc\n" "$work/uncertified.mtn" cert --key="$abc" "$abc" branch main
row "nor a branch without heads" 1 '' 'refused NoBranch\n' "$work/headless.mtn" merge_heads --author=a --date=d --key="$abc" main
row "nor do refused packets" 1 x 'refused BadPacket 1 Truncated\n' "$work/unread.mtn" read
row "nor a refused revision" 1 '' 'refused BadOrder 1\n' "$work/refused.mtn" put_revision
verdict "one store was made" test -e "$work/made.mtn" -a ! -e "$work/unmerged.mtn" -a ! -e "$work/uncertified.mtn" -a ! -e "$work/headless.mtn" -a ! -e "$work/unread.mtn" -a ! -e "$work/refused.mtn"

# A command over a missing store that still reads its input while a second one makes the store.
mkfifo "$work/slow"
./mtn "$work/both.mtn" put_file <"$work/slow" >"$work/first" 2>&1 &
first=$!
exec 8>"$work/slow"
verdict "a first program runs" runs "$first"
sleep 1
row "a missing store is not locked by a command that reads" 0 abc "$abc\n" "$work/both.mtn" put_file
printf 'later' >&8
exec 8>&-
wait "$first"
verdict "that command does not work on what was made meanwhile" test $? = 6 -a ! -s "$work/first"
verdict "and leaves it" asks "$work/both.mtn" 'SELECT count(*) FROM kept' 3
row "tried again, it is done" 0 later "$(printf later | sha1sum | cut -d' ' -f1)\n" "$work/both.mtn" put_file

# Eight commands at once over a missing store: each is done or finds the store busy, one at least is done, and what was done is there.
at_once() {
    local each ended kept=0
    rm -f "$work"/race.*
    for each in 1 2 3 4 5 6 7 8; do
        (printf $each | ./mtn "$work/race.mtn" put_file >/dev/null; echo $? >"$work/race.$each") &
    done
    wait
    for each in 1 2 3 4 5 6 7 8; do
        ended=$(cat "$work/race.$each")
        if [ "$ended" = 0 ]; then
            kept=$((kept + 1))
            [ "$(./mtn "$work/race.mtn" get_file "$(printf $each | sha1sum | cut -d' ' -f1)")" = $each ] || return 1
        elif [ "$ended" != 6 ]; then
            return 1
        fi
    done
    [ "$kept" -gt 0 ] && asks "$work/race.mtn" 'SELECT count(*) FROM kept WHERE kind = 2' "$kept"
}
for round in 1 2 3 4 5; do verdict "eight at once, round $round" at_once; done

# as_nobody WORD..: without the rights of root, whom no mode stops.
as_nobody() {
    if [ "$(id -u)" = 0 ]; then setpriv --reuid=65534 --regid=65534 --clear-groups "$@"; else "$@"; fi
}
# shut NAME STATUS OUTPUT STORE WORD..: the same as a row, as nobody, over an input of no bytes.
shut() {
    local name=$1 status=$2 output=$3 ended
    shift 3
    as_nobody "$work/mtn" "$@" </dev/null >"$work/out" 2>"$work/err"
    ended=$?
    printf "$output" >"$work/want"
    verdict "$name: status $ended, output $(head -c 200 "$work/out")" \
        test "$ended" = "$status" -a ! -s "$work/err" -a "$(cmp "$work/out" "$work/want" 2>&1)" = ""
}
cp target/mtn "$work/mtn"
chmod 755 "$work" "$work/mtn"
mkdir "$work/open" "$work/shut"
cp "$work/made.mtn" "$work/open/s.mtn"
cp "$work/made.mtn" "$work/shut/s.mtn"
chmod 444 "$work/open/s.mtn"
chmod 666 "$work/shut/s.mtn"
chmod 777 "$work/open"
chmod 555 "$work/shut"
for words in put_file "get_file $abc" leaves "merge $abc $nothing" "cert --key=$abc $abc branch main" check migrate stdio; do
    # shellcheck disable=SC2086
    shut "a store that may not be written: $words" 6 '' "$work/open/s.mtn" $words
    # shellcheck disable=SC2086
    shut "a store in a folder that may not be written: $words" 6 '' "$work/shut/s.mtn" $words
done
shut "a missing store in such a folder is asked" 0 '' "$work/shut/none.mtn" leaves
shut "and checked" 0 'ok 0\n' "$work/shut/none.mtn" check
shut "and not migrated" 1 'refused BadOrder 1\n' "$work/shut/none.mtn" migrate
shut "and not made" 6 '' "$work/shut/none.mtn" put_file
for words in "merge $abc $nothing" "cert --key=$abc $abc branch main"; do
    # shellcheck disable=SC2086
    shut "a refusal is answered there: $words" 1 "refused UnknownRevision $abc\n" "$work/shut/none.mtn" $words
done
shut "and a session without requests" 0 '' "$work/shut/none.mtn" stdio
shut "but no key is named" 6 '' "$work/shut/none.mtn" key "$abc" me
verdict "none is there" test ! -e "$work/shut/none.mtn"
# A session of two requests, of which none is answered.
printf 'l8:put_file3:abce l6:leavese' >"$work/requests"
for folder in open shut; do
    as_nobody "$work/mtn" "$work/$folder/s.mtn" stdio <"$work/requests" >"$work/out" 2>"$work/err"
    verdict "a session over such a store, in the folder $folder" test $? = 6 -a ! -s "$work/out" -a ! -s "$work/err"
done
verdict "both stores are as they were" test "$(cat "$work/open/s.mtn" "$work/shut/s.mtn" | sha1sum)" = "$(cat "$work/made.mtn" "$work/made.mtn" | sha1sum)"

# ---- a generated history

generated() { python3 -B -c "import sys; sys.path.insert(0, 'tests'); from generated import generated; sys.stdout.buffer.write(generated($1).summary())"; }
for count in 1 2 3 4 5 8 41 2000; do
    row "a history of $count revisions" 0 unread "$(generated $count)\\n" - generate $count
done
row "into a file, the same" 0 '' "$(generated 2000)\\n" "$work/large.mtn" generate 2000
row "a store with a history is refused" 1 '' 'refused StoreNotEmpty 2000\n' "$work/large.mtn" generate 4
row "files alone are no history" 0 '' "$(generated 4)\\n" "$store" generate 4
verdict "sqlite3 finds it whole" asks "$work/large.mtn" 'PRAGMA integrity_check' ok
row "and so does a check" 0 unread 'ok 2000\n' "$work/large.mtn" check
verdict "the commands one by one make the same records" python3 -B -c "
import subprocess, sys, sqlite3
sys.path.insert(0, 'tests')
from generated import generated
from sessions import request
made = generated(2000)
session = b''.join(request(*words, *([payload] if words[0].startswith('put') else [])) for words, payload in made.commands)
subprocess.run(['./mtn', '$work/one_by_one.mtn', 'stdio'], input=session, stdout=subprocess.DEVNULL, check=True)
held = [sqlite3.connect('$work/%s.mtn' % name).execute('SELECT * FROM kept ORDER BY kind, name').fetchall() for name in ('large', 'one_by_one')]
sys.exit(held[0] != held[1])"

# ---- help, version and the walks in the documents

./mtn --help >"$work/help"
verdict "help has status 0" test $? = 0
while IFS= read -r words; do
    name=${words%% *}
    verdict "help lists $name" grep -q "^  $name " "$work/help"
    ./mtn --help "$name" >"$work/out"
    verdict "and says more of it" test $? = 0 -a "$(head -n 1 "$work/out" | cut -d' ' -f1)" = "$name" -a "$(wc -l <"$work/out")" -gt 1
done <<<"put_file"$'\n'"put_revision"$'\n'"merge"$'\n'"key"$'\n'"cert"$'\n'"commit"$'\n'"merge_heads"$'\n'"read"$'\n'"migrate"$'\n'"generate"$'\n'"stdio"$'\n'"${asked//;/$'\n'}"
for status in 0 1 2 3 4 5 6 7 8 9; do
    ./mtn --explain "$status" >"$work/out"
    verdict "status $status is explained" test $? = 0 -a "$(head -c 2 "$work/out")" = "$status "
done
row "no more is" 2 '' 'usage\n' --explain 10
row "no other command has help" 2 '' 'usage\n' --help head
row "help of two is a store of that name" 2 '' 'usage\n' --help head leaves
row "the version" 0 '' 'mtn 0.1.0 (Sonnavil), store format 2\n' --version
verdict "a store's record says the same format" asks "$store" "SELECT CAST(body AS TEXT) FROM kept WHERE kind = 1 AND name = CAST('version' AS BLOB)" 2

# The walks in the documents, and histories, made and asked for; the rows of each script count here.
# The program is new enough by now: the scripts start it without looking.
export MTN=$PWD/target/mtn
for script in walk revisions merged_rows cert_rows packet_rows check_rows migrate_rows random_histories sessions; do
    told=$(python3 "tests/$script.py")
    ended=$?
    echo "$script: $told"
    read -r more _ fewer _ <<<"$told"
    passed=$((passed + more))
    failed=$((failed + fewer))
    verdict "tests/$script.py ended" test "$ended" = 0 -a "$more" -gt 0
done

echo "$passed passed, $failed failed"
[ "$failed" = 0 ]
