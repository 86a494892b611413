#!/usr/bin/env bash
# docs/READING.md names definitions, functions and must-fail edits: each must stand in the file that the page says. Usage: tests/reading.sh docs/READING.md
set -uo pipefail
page=$1 passed=0 failed=0
names() { grep -oE "\`$1\`" "$page" | tr -d '`' | sort -u; }
stands() { # NAME FILE PATTERN: a line of the file fits the pattern
    if [ -f "$2" ] && grep -qE "$3" "$2"; then
        passed=$((passed + 1))
    else
        echo "$page: no $1 in $2"
        failed=$((failed + 1))
    fi
}

# definitions and theorems: Module.name, theorems/Module.name; a theorem that is not in specs/ is in proofs/
while read -r name; do
    crate=definitions word=${name#*.} module=${name%%.*}
    case $module in
        theorems/*) crate=theorems module=${module#theorems/} ;;
    esac
    pattern="^[^-]*(^|[ (])$word( [^=]*)? :( |\$)" file=crates/$crate/specs/$module.antt
    if [ "$crate" = theorems ] && ! { [ -f "$file" ] && grep -qE "$pattern" "$file"; }; then
        file=crates/$crate/proofs/$module.antt
    fi
    stands "$word" "$file" "$pattern"
done < <(names '(theorems/)?[A-Z][A-Za-z0-9]*\.[A-Za-z][A-Za-z0-9_-]*')

# functions and types of the code: crate::name, crate::module::name
while read -r name; do
    crate=${name%%::*} item=${name##*::} module=${name#*::}
    module=${module%::*}
    [ "$module" = "$item" ] && module=lib
    stands "$item" "crates/$crate/src/$module.rt" "^(pub )?(extern \"C\" )?(fn|enum|struct) $item([^a-zA-Z0-9_]|\$)"
done < <(names '[a-z_]+(::[a-z_]+)?::[A-Za-z_]+')

# must-fail edits: crate/must-fail/name
while read -r name; do
    stands "$name" "crates/$name.edit" '^new:'
done < <(names '[a-z_]+/must-fail/[a-z0-9_]+')

echo "$passed passed, $failed failed"
[ "$failed" -eq 0 ] && [ "$passed" -gt 0 ]
