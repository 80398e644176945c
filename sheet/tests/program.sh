#!/bin/sh
# The program as its users call it: arguments, files, standard input and output, messages and exit statuses; and the
# exercises. Called from the root of the repository: sheet/tests/program.sh PROGRAM FOLDER, the folder being one that may
# be written to. Prints how many checks there were; stops at the first that fails.
set -eu
case $1 in
/*) program=$1 ;;
*) program=$PWD/$1 ;;
esac
folder=$2
mkdir -p "$folder"
checks=0

fail()
{
    echo "program.sh: $1" >&2
    exit 1
}

# Runs the program with the arguments behind the first two: an exit status and all that is on standard error. What is on
# standard output stays in the folder.
gives()
{
    status=$1
    message=$2
    shift 2
    got=0
    "$program" "$@" > "$folder/out" 2> "$folder/err" || got=$?
    [ "$got" -eq "$status" ] || fail "status $got and not $status: $*"
    printf '%s' "$message" > "$folder/wanted"
    [ -z "$message" ] || echo >> "$folder/wanted"
    cmp -s "$folder/wanted" "$folder/err" || fail "$* says: $(cat "$folder/err")"
    [ "$status" -eq 0 ] || [ ! -s "$folder/out" ] || fail "$* prints something"
    checks=$((checks + 1))
}

# What was printed last is this file.
same_as()
{
    cmp "$folder/out" "$1" || fail "another output than $1"
    checks=$((checks + 1))
}

usage="canyonsieve-sheet: usage: canyonsieve-sheet [--text | --csv | --blank] [--from-text] [--] [FILE]"
first=exercises/first_case

# The exercises, and the texts of the six mistakes.
for case in exercises/*.case; do
    name=${case%.case}
    gives 0 "" "$case"
    same_as "$name.sheet"
    gives 0 "" --blank "$case"
    same_as "$name.blank"
    text=examples/mistake_${name#exercises/}.txt
    if [ -f "$text" ]; then
        gives 0 "" --text "$case"
        same_as "$text"
    fi
done

# A text gives the sheet of its case again, but for the names of posts, and its own text.
gives 0 "" --text $first.case
cp "$folder/out" "$folder/text"
gives 0 "" --from-text "$folder/text"
sed -e 's/^post 1/Ward  /' -e 's/^post 2/Clinic/' "$folder/out" > "$folder/renamed"
cmp "$folder/renamed" $first.sheet || fail "another sheet from the text"
gives 0 "" --text --from-text "$folder/text"
same_as "$folder/text"
gives 0 "" --from-text --text -- "$folder/text"
same_as "$folder/text"

# Where the case comes from.
gives 0 "" < $first.case
same_as $first.sheet
gives 0 "" - < $first.case
same_as $first.sheet
gives 0 "" -- - < $first.case
same_as $first.sheet
gives 0 "" -- $first.case
same_as $first.sheet
cp $first.case "$folder/--blank"
(cd "$folder" && "$program" -- --blank) > "$folder/out" || fail "a file called --blank"
same_as $first.sheet

# Messages name the file; those about standard input name none.
printf 'member born 1970-04-01 retires 2037-04-01 age 67\nyear 2015 revaluation 0%%\npost a 1 of 37.5 1\n' > "$folder/case"
printf 'post b 38h00 of 37h30 1' >> "$folder/case"
refused="line 4: 38h00 is more than its whole-time week of 37h30 (refusal 7)"
gives 1 "canyonsieve-sheet: $folder/case: $refused" "$folder/case"
gives 1 "canyonsieve-sheet: $refused" < "$folder/case"
gives 1 "canyonsieve-sheet: $folder/case: $refused" --csv "$folder/case"
gives 1 "canyonsieve-sheet: $folder/case: $refused" --blank "$folder/case"
gives 0 "" --text "$folder/case"
gives 2 "canyonsieve-sheet: $folder/text: line 1, column 1: \"0107B2040107F5040101433C\" begins no line of a case: \
member, year, post, section, factor or debit" "$folder/text"
gives 1 "canyonsieve-sheet: no member line (refusal 4)" < /dev/null

# Files that cannot be opened, read or written.
gives 2 "canyonsieve-sheet: $folder/none: cannot be opened: No such file or directory" "$folder/none"
gives 2 "canyonsieve-sheet: $folder: cannot be read: Is a directory" "$folder"
gives 2 "canyonsieve-sheet: standard input: cannot be read: Bad file descriptor" <&-
got=0
"$program" $first.case > /dev/full 2> "$folder/err" || got=$?
[ "$got" -eq 2 ] || fail "status $got when the output cannot be written"
[ "$(cat "$folder/err")" = "canyonsieve-sheet: the output could not be written" ] || fail "another message: /dev/full"
got=0
"$program" $first.case 2> "$folder/err" >&- || got=$?
[ "$got" -eq 2 ] || fail "status $got when the output is closed"
checks=$((checks + 2))

# Arguments.
for wrong in --nothing -t --text=x --Text; do
    gives 2 "$usage" $wrong $first.case
done
gives 2 "$usage" --text --csv $first.case
gives 2 "$usage" --blank --text $first.case
gives 2 "$usage" --csv --blank $first.case
gives 2 "$usage" --csv --csv $first.case
gives 2 "$usage" $first.case --csv
gives 2 "$usage" $first.case $first.case
gives 2 "$usage" --help $first.case
gives 0 "" --help
grep -q '^usage: canyonsieve-sheet' "$folder/out" || fail "--help"
gives 0 "" --version
grep -q '^canyonsieve-sheet, for version [0-9]* of canyonsieve.h$' "$folder/out" || fail "--version"

# No locale changes anything.
for locale in C C.UTF-8 de_DE.UTF-8 tr_TR.UTF-8 en_GB.ISO-8859-1; do
    LC_ALL=$locale
    export LC_ALL
    gives 0 "" $first.case
    same_as $first.sheet
done

echo "$checks checks"
