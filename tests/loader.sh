#!/usr/bin/env bash
# Runs the loader as a depot would: runs that are done, stopped and refused, a read-only folder, a full disc. Usage: tests/loader.sh ZEDLOAD
# The last line is 'N passed, M failed'.
set -u
zedload=$(realpath "$1")
home=$(mktemp -d)
trap 'chmod -R u+w "$home"; rm -rf "$home"' EXIT
cd "$home" || exit 1
chmod 755 "$home"

passed=0 failed=0
check() { # NAME COMMAND..: the command must succeed
    local name=$1
    shift
    if "$@"; then
        passed=$((passed + 1))
    else
        failed=$((failed + 1))
        echo "failed: $name"
        sed 's/^/    /' out err
    fi
}
status() { [ "$got" -eq "$1" ]; }
says() { grep -qF -- "$1" out err; }
silent() { ! grep -qiF -- "$1" out err; }
same() { cmp -s "$1" "$2"; }
absent() { [ ! -e "$1" ]; }
only() { # the files of this folder, and no leftover beside them
    [ "$(ls -A | sort | tr '\n' ' ')" = "$(printf '%s\n' "$@" out err table.first | sort | tr '\n' ' ')" ]
}
load() { # the loader's status is in `got`
    "$zedload" "$@" >out 2>err
    got=$?
}
fresh() { # an own folder with K1's table
    cd "$home" || exit 1
    mkdir "$1" && cd "$1" || exit 1
    printf 'R01 open 06:10 90\nR02 open 06:25 90\nR03 open 07:00 60\n' >table
    cp table table.first
    printf 'F B/R02/; E/90/120/\nF B/R03/; D\nIS/R04 open 07:15 60/\nW\n' >season
}

fresh done
load -l listing table season
check "done: status" status 0
check "done: says so" says "Done: table is updated. Steps 10, furthest line read 4"
printf 'R01 open 06:10 90\nR02 open 06:25 120\nR04 open 07:15 60\n' >want
check "done: the new table" same table want
printf '==R01 open 06:10 90\n<>R02 open 06:25 90\nR02 open 06:25 120\n--R03 open 07:00 60\n++R04 open 07:15 60\n' >want
check "done: the journal" same table.journal want
printf '    1  R01 open 06:10 90\n    2 +R02 open 06:25 120\n ****  R04 open 07:15 60\n' >want
check "done: the listing" same listing want
rm want
check "done: no other file" only table season table.journal listing

fresh elsewhere
chmod 640 table
load -o new -j log table season
check "elsewhere: status" status 0
check "elsewhere: says so" says "Done: new is updated"
check "elsewhere: the old table stays" same table table.first
check "elsewhere: the new table has the old one's mode" test "$(stat -c %a new)" = 640
check "elsewhere: no other file" only table season new log

fresh stopped
printf 'E/90/95/\nF /R09/\n' >season
load table season
check "stopped: status" status 1
check "stopped: says so" says "Stopped: the table is not updated."
check "stopped: in words" says "the line looked for is not there. (21)"
check "stopped: line and column" says "season, line 2, column 1:"
check "stopped: the mark" test "$(sed -n '/season, line/,$p' err | tail -n 2)" = "$(printf '  F /R09/\n  ^')"
check "stopped: never says updated" silent "is updated"
check "stopped: the table stays" same table table.first
check "stopped: the journal is filed" grep -q '^R01 open 06:10 95$' table.journal

fresh last
printf 'F B/R03/\n  CL/, /\n' >season
load table season
check "no next line: status" status 1
check "no next line: says so" says "Stopped: the table is not updated. Steps 5, furthest line read 4"
check "no next line: in words" says "There is no next line to join to the current one. (30) The script does not fit this table"
check "no next line: line and column" says "season, line 2, column 3:"
check "no next line: never says updated" silent "is updated"
check "no next line: the table stays" same table table.first

fresh joined
printf 'M 2; CL/, /\n' >season
load table season
check "joined: status" status 0
printf 'R01 open 06:10 90\nR02 open 06:25 90, R03 open 07:00 60\n' >want
check "joined: the new table" same table want
printf '==R01 open 06:10 90\n<>R02 open 06:25 90\nR02 open 06:25 90, R03 open 07:00 60\n--R03 open 07:00 60\n' >want
check "joined: the journal" same table.journal want

fresh globals
printf 'GE/open/OPEN/; GA/OPEN/ at/\nM 2; E/90/95/\n' >season
load -l listing table season
check "globals: status" status 0
check "globals: says so" says "Done: table is updated. Steps 4, furthest line read 2"
printf 'R01 open 06:10 90\nR02 OPEN at 06:25 95\nR03 OPEN at 07:00 60\n' >want
check "globals: the new table" same table want
printf '==R01 open 06:10 90\n<>R02 open 06:25 90\nR02 OPEN at 06:25 95\n<>R03 open 07:00 60\nR03 OPEN at 07:00 60\n' >want
check "globals: the journal" same table.journal want
printf '    1  R01 open 06:10 90\n    2 +R02 OPEN at 06:25 95\n    3 +R03 OPEN at 07:00 60\n' >want
check "globals: the listing" same listing want

fresh seventeen
printf 'N\n17GE/90/95/\n' >season
load table season
check "seventeen globals: status" status 1
check "seventeen globals: in words" says "Sixteen globals stand already, and the script gives one more. (31) This is for the script's author to mend."
check "seventeen globals: line and column" says "season, line 2, column 3:"
check "seventeen globals: the table stays" same table table.first
check "seventeen globals: the unread lines are kept" test "$(grep -c '^==' table.journal)" = 3

fresh grown
printf 'R04 %0250d\n' 0 >>table
cp table table.first
printf 'GE/0/00/; M 2\n' >season
load table season
check "a line too long after the end: status" status 1
check "a line too long after the end: says so" says "Stopped: the table is not updated. Steps 2, furthest line read 2"
check "a line too long after the end: in words" says "The line would become longer than 255 bytes. (25) The script does not fit this table"
check "a line too long after the end: where" says "season, after the script's end, in a line that it had not read."
check "a line too long after the end: no line of the script" silent "column"
check "a line too long after the end: never says updated" silent "is updated"
check "a line too long after the end: the table stays" same table table.first
check "a line too long after the end: the line that was read is changed" grep -q '^R002 open 006:25 900$' table.journal
check "a line too long after the end: the unread lines are kept" test "$(grep -c '^==' table.journal)" = 3
printf 'GE/0/00/; M *\n' >season
load table season
check "a line too long on the way: status" status 1
check "a line too long on the way: says so" says "Stopped: the table is not updated. Steps 2, furthest line read 4"
check "a line too long on the way: line and column" says "season, line 1, column 11:"
check "a line too long on the way: the table stays" same table table.first

fresh narrow
printf 'GE/90/95/; W\n' >season
load -r 18 table season
check "journal just long enough for globals: status" status 0
cp table.first table
load -r 17 table season
check "journal full after the end: status" status 1
check "journal full after the end: in words" says "The journal has no room for this change: give more with -r. (26)"
check "journal full after the end: where" says "season, after the script's end, in a line that it had not read."
check "journal full after the end: the table stays" same table table.first

fresh budget
load -b 3 table season
check "budget: status" status 1
check "budget: says so" says "Stopped: the table is not updated. Steps 3, furthest line read 2"
check "budget: in words" says "The steps allowed are spent: the script may run for ever, or -b is too small. (29)"
check "budget: that a larger one goes on" says "With a larger -b the run comes to this same point again and can only go on from there. Its next step is here:"
check "budget: from where" test "$(tail -n 3 err)" = "$(printf 'season, line 1, column 11:\n  F B/R02/; E/90/120/\n            ^')"
check "budget: never says updated" silent "is updated"
check "budget: the table stays" same table table.first
cp table.journal journal.3
load -b 9 table season
check "budget one short: status" status 1
check "budget one short: says so" says "Steps 9, furthest line read 4"
check "budget one short: from where" says "season, line 4, column 1:"
check "budget one short: the table stays" same table table.first
load -b 10 table season
check "budget just enough: status" status 0
check "budget just enough: says so" says "Done: table is updated. Steps 10, furthest line read 4"
cp table table.new && cp table.journal journal.10 && cp table.first table
load table season
check "the largest budget: status" status 0
check "the largest budget: the same table" same table table.new
check "the largest budget: the same journal" same table.journal journal.10
cp table.first table
load -b 3 table season
check "the budget again: the same journal" same table.journal journal.3
load -b 0 table season
check "no step: status" status 1
check "no step: from where" says "season, line 1, column 1:"

fresh full
load -r 3 table season
check "journal full: status" status 1
check "journal full: in words" says "give more with -r"
check "journal full: the table stays" same table table.first

fresh refused
printf 'N; (N\n' >season
load table season
check "refused: status" status 2
check "refused: says so" says "Refused: nothing was run, and no file is changed."
check "refused: the script's end" says "season, line 1, column 6, the script's end:"
check "refused: never says updated" silent "is updated"
check "refused: the table stays" same table table.first
check "refused: no journal" only table season

fresh words
printf 'A-12 open\nA open\nR12 open\n' >table
printf 'WORD/A-Z0-9"-/\nF W/A/; E W/A/B/; E/open/shut/\n' >season
load table season
check "word characters: status" status 0
check "word characters: says so" says "Done: table is updated. Steps 6, furthest line read 2"
printf 'A-12 open\nB shut\nR12 open\n' >want
check "word characters: the new table" same table want

fresh misused
printf 'N\nM 1;  WORD/A-Z0-9-/\n' >season
load table season
check "a - misused: status" status 2
check "a - misused: says so" says "Refused: nothing was run, and no file is changed."
check "a - misused: in words" says "This - or \" cannot stand here in the string of WORD"
check "a - misused: whose matter" says "(33) This is for the script's author to mend."
check "a - misused: where" test "$(tail -n 3 err)" = "$(printf 'season, line 2, column 18:\n  M 1;  WORD/A-Z0-9-/\n                   ^')"
check "a - misused: never says updated" silent "is updated"
check "a - misused: the table stays" same table table.first
check "a - misused: no journal" only table season
printf 'WORD/A-Z"' >season
printf '\n' >>season
load table season
check "a quote misused: status" status 2
check "a quote misused: where" test "$(tail -n 3 err)" = "$(printf 'season, line 1, column 9:\n  WORD/A-Z"\n          ^')"

fresh patterns
printf 'at 06:10 open\nat noon open\nat 6:25 open\n' >table
printf 'WH R/0-9#0-9:0-90-9/ (E R/0-9#0-9:0-90-9/-/; N); N; E WR/#0-9:#0-9/-/\n' >season
load table season
check "patterns: status" status 0
check "patterns: says so" says "Done: table is updated. Steps 6, furthest line read 3"
printf 'at - open\nat noon open\nat - open\n' >want
check "patterns: the new table" same table want

fresh ill-formed
printf 'N\nM 1; E R/0-9|9-0/x/\n' >season
load table season
check "an ill-formed pattern: status" status 2
check "an ill-formed pattern: says so" says "Refused: nothing was run, and no file is changed."
check "an ill-formed pattern: in words" says "The pattern is ill-formed: it cannot go on with this byte, or cannot end here."
check "an ill-formed pattern: whose matter" says "(34) This is for the script's author to mend."
check "an ill-formed pattern: where" test "$(tail -n 3 err)" = "$(printf 'season, line 2, column 16:\n  M 1; E R/0-9|9-0/x/\n                 ^')"
check "an ill-formed pattern: never says updated" silent "is updated"
check "an ill-formed pattern: the table stays" same table table.first
check "an ill-formed pattern: no journal" only table season
printf 'F R/(06:|07:' >season
printf '\n' >>season
load table season
check "a pattern that ends too early: status" status 2
check "a pattern that ends too early: where" test "$(tail -n 3 err)" = "$(printf 'season, line 1, column 13:\n  F R/(06:|07:\n              ^')"

fresh malformed
printf 'no line end' >table
cp table table.first
load table season
check "malformed: status" status 2
check "malformed: whose matter" says "the table's keeper"
check "malformed: the table stays" same table table.first
check "malformed: no journal" only table season

fresh overlong
head -c 20000 /dev/zero | tr '\0' 'N' >season
load table season
check "overlong script: status" status 2
check "overlong script: in words" says "longer than 16,384 bytes"

fresh missing
load nowhere season
check "missing: status" status 3
check "missing: says so" says "cannot be read"
load -j table table season
check "clash: status" status 3
check "clash: says so" says "one and the same"
check "clash: the table stays" same table table.first
load -b 4294967296 table season
check "budget out of range: status" status 3
check "budget out of range: usage" says "usage:"
load table
check "usage: status" status 3

fresh link
mkdir real && mv table real/table && ln -s real/table table
load table season
check "link: status" status 0
check "link: stays" test -L table
check "link: its table is updated" grep -q 'R04 open' real/table

# Nobody may write in the folder; root may, so the loader runs as nobody where the tests are root's.
fresh readonly
chmod 555 .
touch "$home/ro.out" "$home/ro.err" && chmod 666 "$home/ro.out" "$home/ro.err"
if [ "$(id -u)" -eq 0 ]; then
    cp "$zedload" "$home/zedload" && chmod 755 "$home/zedload"
    setpriv --reuid=65534 --regid=65534 --clear-groups "$home/zedload" table season >"$home/ro.out" 2>"$home/ro.err"
else
    "$zedload" table season >"$home/ro.out" 2>"$home/ro.err"
fi
got=$?
chmod 755 .
cp "$home/ro.out" out && cp "$home/ro.err" err
check "read-only: status" status 3
check "read-only: says so" says "could not be written"
check "read-only: not updated" says "table is not updated"
check "read-only: the table stays" same table table.first
check "read-only: no other file" only table season

# A full disc: files may not grow past 1 KiB, and the journal is longer.
fresh disc
for i in $(seq 100 160); do echo "R$i open 06:10 90"; done >table
cp table table.first
printf 'E/90/120/\n' >season
(ulimit -f 1 && "$zedload" table season >out 2>err)
got=$?
check "full disc: status" status 3
check "full disc: says so" says "could not be written"
check "full disc: not updated" says "table is not updated"
check "full disc: never says updated" silent "is updated"
check "full disc: the table stays" same table table.first
check "full disc: no other file" only table season

# The folder of the new table is missing: the journal is filed all the same.
fresh later
printf 'N\n' >season
load -o nowhere/new table season
check "no folder for the new table: status" status 3
check "no folder for the new table: not updated" says "is not updated"
check "no folder for the new table: the journal is filed" test -s table.journal
check "no folder for the new table: the table stays" same table table.first

echo "$passed passed, $failed failed"
[ "$failed" -eq 0 ]
