#!/bin/sh
# The README's program in C: compiled as it stands there, run on the sheet that
# the README names, and held to the output that the README shows.
#
#     CC   the compiler, with its flags     LIB  the library
#     RUN  what a program is run under      OUT  where to build
set -u
here=$(cd "$(dirname "$0")" && pwd -P)
page=$here/../README.md
out=$OUT/readme
mkdir -p "$out" || exit 2

awk '/^```/ { inside = $0 == "```c"; next } inside' "$page" >"$out/first.c"
# What follows the command that runs it, up to the end of that block.
awk '/^    \.\/first / { shown = 1; next } shown && !/^    / { exit } shown { print substr($0, 5) }' "$page" >"$out/shown"
if ! [ -s "$out/first.c" ] || ! [ -s "$out/shown" ]; then
    echo 'readme: no program, or no output of it, in README.md' >&2
    exit 1
fi
$CC -std=c11 -Wall -Wextra -Werror -I"$here/../include" "$out/first.c" "$LIB" -o "$out/first" || exit 1
${RUN:-} "$out/first" <"$here/../examples/two-contact.sheet" >"$out/got" || exit 1
diff "$out/shown" "$out/got"
