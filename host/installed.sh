#!/bin/sh
# What `make install` leaves, tried from the outside: the README's program built
# from the installed header and library alone, and the installed chz held to the
# launcher in output and status.
#
#     CC   the compiler, with its flags     RUN  what a program is run under
#     OUT  where to build; `make readme` was there before
set -u
root=$(cd "$(dirname "$0")/.." && pwd -P)
case $OUT in /*) out=$OUT ;; *) out=$(pwd -P)/$OUT ;; esac
to=$out/installed
rm -rf "$to"
${MAKE:-make} -s install PREFIX="$to" DESTDIR= || exit 1

fault() { printf 'installed: %s\n' "$*" >&2; exit 1; }

if command -v pkg-config >/dev/null 2>&1; then
    flags=$(PKG_CONFIG_PATH=$to/lib/pkgconfig pkg-config --cflags --libs chmurzeta) || fault 'pkg-config does not find it'
else
    flags="-I$to/include -L$to/lib -lrecorder"
fi
$CC -std=c11 -Wall -Wextra -Werror "$out/readme/first.c" $flags -o "$to/first" || fault 'the program does not build'
${RUN:-} "$to/first" <"$root/examples/two-contact.sheet" | diff "$out/readme/shown" - || fault 'the program says something else'

# One version: the header's, from which the pkg-config file has it, and the program's.
version=$(sed -n 's/^Version: //p' "$to/lib/pkgconfig/chmurzeta.pc")
[ "chz $version" = "$("$to/bin/chz" version)" ] || fault "the header is version $version, and the program is not"

# A good sheet, a refused one, and a fault of usage: statuses 0, 1 and 2.
cd "$root" || exit 2
for words in version 'check examples/door.sheet' 'check /dev/null' check; do
    ./chz $words >"$to/expected" 2>&1
    status=$?
    "$to/bin/chz" $words >"$to/got" 2>&1
    [ $? -eq "$status" ] || fault "chz $words: another status"
    diff "$to/expected" "$to/got" || fault "chz $words: another answer"
done
