#!/usr/bin/env bash
# Runs the examples of a guide by the test program: tests/examples.sh GUIDE PROGRAM ZEDLOAD. An example is a block ```table, a block ```script and a block
# ```prints, which the program must print; a block ```journal after it is the journal that the loader must file. Then the program's own limits: its
# files at their longest, one byte longer, and missing.
# The last line is 'N passed, M failed'.
set -u
guide=$(realpath "$1") program=$(realpath "$2") zedload=$(realpath "$3")
home=$(mktemp -d)
trap 'rm -rf "$home"' EXIT
cd "$home" || exit 1

# each block goes to a file: 1.table, 1.script, 1.prints, 2.table ..
awk '
    /^```(table|script|prints|journal)$/ { kind = substr($0, 4); if (kind == "table") n++; file = n "." kind; printf "" > file; next }
    /^```/ { file = "" }
    file != "" { print > file }
' "$guide"

passed=0 failed=0
for prints in *.prints; do
    n=${prints%.prints}
    mkdir "run$n" && cp "$n.table" "run$n/OLD" && cp "$n.script" "run$n/EDITS"
    if (cd "run$n" && "$program" >../got 2>&1) && cmp -s got "$prints"; then
        passed=$((passed + 1))
    else
        failed=$((failed + 1))
        echo "example $n of $(basename "$guide"): it prints"
        cat got
    fi
done
# a guide whose blocks are not found proves nothing
[ "$passed" -gt 0 ] || failed=$((failed + 1))

journals=0
for journal in *.journal; do
    n=${journal%.journal}
    "$zedload" -o new -j filed "$n.table" "$n.script" >got 2>&1
    if cmp -s filed "$journal"; then
        passed=$((passed + 1)) journals=$((journals + 1))
    else
        failed=$((failed + 1))
        echo "example $n of $(basename "$guide"): the journal is"
        cat filed got
    fi
    rm -f new filed
done
[ "$journals" -gt 0 ] || failed=$((failed + 1))

# OLD of 16,384 bytes and EDITS of 8,128 are read; a byte more, or a missing file, is a message on standard error and nothing on standard output
sized() { head -c $(($1 - 1)) /dev/zero | tr '\0' '\n'; echo; }
limit() { # NAME OLD-BYTES EDITS-BYTES WANT: a length of 0 leaves the file out; WANT is `runs` or the file that the message names
    local name=$1 want=$4
    rm -rf limit && mkdir limit
    [ "$2" -eq 0 ] || sized "$2" >limit/OLD
    [ "$3" -eq 0 ] || sized "$3" >limit/EDITS
    (cd limit && "$program" >../got 2>../said)
    if [ "$want" = runs ] && [ ! -s said ] && [ "$(tail -n 1 got)" = "end 0 steps 0 read 1 at 0" ]; then
        passed=$((passed + 1))
    elif [ "$want" != runs ] && [ ! -s got ] && grep -q "$want" said; then
        passed=$((passed + 1))
    else
        failed=$((failed + 1))
        echo "test program, $name: it prints"
        head -n 3 got said
    fi
}
limit "OLD and EDITS at their longest" 16384 8128 runs
limit "OLD one byte too long" 16385 8128 OLD
limit "EDITS one byte too long" 16384 8129 EDITS
limit "no OLD" 0 8128 OLD
limit "no EDITS" 16384 0 EDITS

echo "$passed passed, $failed failed"
[ "$failed" -eq 0 ]
