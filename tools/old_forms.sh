#!/bin/bash
# Lists the places in crates/*/src that are written in an older form, point by point, and counts them.
# usage: old_forms.sh [FOLDER]      FOLDER holds crates/ (default: the one above this script)
tools=$(cd "$(dirname "$0")" && pwd)
cd "${1:-$tools/..}/crates" || exit 1
code=$(ls -d */ | grep -v _tests/ | sed 's:/$:/src/*.rt:')

count() { # TITLE LINES
    printf '\n%s: %s\n' "$1" "$(printf '%s' "$2" | grep -c .)"
    printf '%s\n' "$2" | sed '/^$/d; s/^/    /'
}

count '1a numbers that stand for a kind, a refusal or a half' \
    "$(grep -nE '\b(number|code): u8\b|\bhalf: u32\b|header % 2 ' $code)"
count '1b public functions that answer None where they refuse' \
    "$(grep -nE '^pub fn .*-> Option<usize>' $code)"
count '1c enums of the shape of a Result or with the same fields in each variant, flags that choose' \
    "$(grep -nE 'enum (Halt|Token|Layer)|fn has_(cards|buffer)|fn message' $code)"
count '2 twins' "$(python3 "$tools/twins.py" .. | sed '$d')"
count '3 loops that count by hand' \
    "$(grep -nE '^ *(while |for [a-z]+ in [^{(]*\.\.)' */src/*.rt | grep -v 'while let')"
count '4a casts' "$(grep -noE ' as (usize|u8|u16|u32|u64|i32|i64)\b' $code)"
count '4b matches of an Option by hand: the arm None, and let .. else' \
    "$(grep -nE '^ *None =>|let Some\(.*else' $code)"
count '5a clauses that stand three times or more' \
    "$(grep -hoE '(requires|ensures)[a-z_ ]*\{.*\}' $code | sed -E 's/ [a-z_]+ \{/ {/' | sort | uniq -c | awk '$1 > 2')"
count '5b parameters, two or more, that stand together three times or more' \
    "$(grep -hoE 'fn [a-z_0-9]+(<[^>]*>)?\([^)]*\)' $code | sed -E "s/^fn [a-z_0-9]+(<[^>]*>)?\((&(mut )?self, )?//; s/\)$//" |
        grep ', ' | sort | uniq -c | awk '$1 > 2')"
count '6 fields that are arrays, rows or maps' \
    "$(grep -nE '^ +(pub(\([a-z]+\))? )?[a-z_]+: (\[[^;]*; [^ ]*\]|Vec<.*|ArrayVec<.*|ArrayString<.*|BTreeSet<.*|VecDeque<.*|Option<Vec<.*),$' $code | grep -v ': &')"
count '7 switches by a flag in specs' \
    "$(grep -nE '^abbrev pub [^ ]+ : (\([a-z_ -]+ : Bool\)|Bool) →' */specs/*.antt)"
count '8 files of answers' "$(find */proofs -name Answers.antt | sort)"
printf 'lines of answers %s, of other proofs %s, of specs %s\n' \
    "$(find */proofs -name Answers.antt -exec cat {} + | wc -l)" \
    "$(find */proofs -name '*.antt' ! -name Answers.antt -exec cat {} + | wc -l)" \
    "$(cat */specs/*.antt | wc -l)"
