#!/usr/bin/env bash
# Counts the places in crates/*/src that docs/DESIGN-PASS.md speaks of. Usage: tools/places.sh [FOLDER], a checkout; with LIST=1 it prints them too.
set -uo pipefail
cd "${1:-$(dirname "$0")/..}" || exit 1
files() { find crates/*/src -name '*.rt' | sort; }
show() { # NAME: counts the lines that come in, and prints them where LIST is set
    local lines
    lines=$(cat)
    printf '%5d  %s\n' "$(grep -c . <<<"$lines")" "$1"
    [ -z "${LIST:-}" ] || sed 's/^/         /' <<<"$lines"
}
find_in() { # NAME PATTERN: the lines of code that fit, comments aside
    files | xargs grep -nE "$2" | grep -vE '^[^:]*:[0-9]*:\s*//' | show "$1"
}
across() { # NAME PATTERN: the same where a parameter list may be broken into lines
    files | while read -r f; do tr '\n' ' ' <"$f" | tr -s ' ' | grep -oE "$2" | sed "s|^|$f: |"; done | show "$1"
}

find_in "1 enums of the repository" '^\s*(pub )?enum '
find_in "1 an answer's number written as a figure" '(Refused|Stop|Nowhere)\([0-9]|\bnumber: [0-9]'
find_in "1 constants for kinds, classes, ways and modes" '^\s*pub const [A-Z_]+: u(8|16|32)'
find_in "1 kinds, classes, ways, modes and anchors as numbers" '\b(kind|mode|class|anchor|way|shape): u(8|32)'
files | xargs grep -hoE '^\s*(pub )?fn [a-z_0-9]+' | sed 's/.*fn //' | sort | uniq -d | show "2 names that two functions or more have"
find_in "3 while and loop" '\b(while .*\{|loop \{)'
find_in "3 an index counted by hand" '^\s*[a-z_.]+ [+-]= 1;'
find_in "3 for" '^\s*for '
find_in "4 as" ' as (u8|u16|u32|u64|usize)\b'
find_in "4 derives of more than Clone and Copy" 'derive\(.*(Debug|PartialEq)'
across "5 journal bytes and State together" 'j: &('"('a )?"'mut )?\[u8\], st: State'
across "5 script and place together" '\bs: &\[u8\], (w: &mut \[u32\], k: usize, place: usize, )?at: usize'
across "5 script and work area together" '(script|s): &\[u8\], (table: &('"'a "')?\[u8\], )?w(ords)?: &(mut )?\[u32\]'
across "5 three words of a set" 'set: &\[u32\]'
across "6 bytes with from and n, or to" '\b[a-z]+: &\[u8\], (from|at): usize, (n|to|end|m): usize'
across "6 destination and place together" 'dest: &mut \[u8\], out: usize'
find_in "7 Fn, FnMut, FnOnce and dyn" '\b(Fn|FnMut|FnOnce)\(|\bdyn '
find crates/*/proofs -name Answers.antt | sort | show "8 files of answers"
find crates/*/proofs -name '*.antt' -print0 | xargs -0 cat | grep . | LIST= show "8 lines of proofs"
