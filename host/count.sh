#!/bin/sh
# The instructions of each call, library and second program, as a Markdown
# table. Needs valgrind. The count is the same at every run of one library; all
# is bound before the first call, so that no call has the loader's work in it.
set -u
counted() { # PROGRAM SHEET FUNCTION
    LD_BIND_NOW=1 valgrind --tool=callgrind --callgrind-out-file=/dev/null --toggle-collect="$3" "$1" "$2" 2>&1 |
        sed -n 's/.*Collected : //p'
}
echo '| Call | Sheet or its code | Library, instructions | Second program, instructions |'
echo '|---|---|---:|---:|'
for sheet in two-contact largest; do
    for call in check_sheet translate cold_scan cold_run scan check_code run; do
        printf '| %s | %s | %s | %s |\n' "$call" "$sheet" "$(counted "$1" $sheet "chz_$call")" "$(counted "$1" $sheet "second_$call")"
    done
done
