#!/bin/sh
# The command line's tests. Each runs chz on small files and holds what it writes, what it says on standard error and its
# status to tests/chz/NAME.expected. Prints 'ok' or 'FAILED' a line, and ends with 1 where one failed.
# UPDATE=1 writes the expected files anew: read them before they are committed.
set -u
here=$(cd "$(dirname "$0")" && pwd -P)
root=$(dirname "$(dirname "$here")")
room=$(mktemp -d) || exit 2
trap 'rm -rf "$room"' EXIT
cd "$room" || exit 2
passed=0 failed=0 input=/dev/null

# Builds the program where it has to be built, so that no test's output has what the build says.
"$root/chz" version >/dev/null || exit 2

verdict() { # NAME GOOD
    if [ "$2" = yes ]; then
        echo "ok $1"
        passed=$((passed + 1))
    else
        echo "FAILED $1"
        failed=$((failed + 1))
    fi
}

# Holds the file 'got' to what is expected of it.
hold() { # NAME
    [ -z "${UPDATE:-}" ] || cp got "$here/$1.expected"
    if cmp -s got "$here/$1.expected"; then
        verdict "$1" yes
    else
        verdict "$1" no
        diff "$here/$1.expected" got | head -n 20
    fi
}

try() { # NAME WORD..
    name=$1
    shift
    "$root/chz" "$@" <"$input" >out 2>err
    status=$?
    {
        echo "\$ chz $*"
        cat out
        if [ -s err ]; then
            echo '--- standard error'
            cat err
        fi
        echo "--- status $status"
    } >got
    hold "$name"
}

same() { # NAME FILE FILE
    if cmp -s "$2" "$3"; then verdict "$1" yes; else verdict "$1" no; fi
}

# Holds what a command wrote, said and ended with, told without the command itself.
tell() { # NAME STATUS
    {
        cat out
        if [ -s err ]; then
            echo '--- standard error'
            cat err
        fi
        echo "--- status $2"
    } >got
    hold "$1"
}

# ---- usage
try none
try help help
try help-long --help
try help-short -h
try help-extra help extra
try version version
try version-long --version
try version-extra version extra
try unknown chek m.sheet
try unknown-option run --sheets m.sheet m.trace
try option-no-value run m.sheet m.trace --code
try check-no-file check
try check-two check --code m.code m.sheet
try translate-one-file translate m.sheet
try run-three-files run m.sheet a b
try run-code-two-files run --code m.code a b
try demo-with-file demo m.sheet

# ---- the demonstration
try demo demo

# ---- accepted sheets
printf '\010\000\010\040\000\000\000\000\200' >m.sheet
cp "$root/examples/two-contact.sheet" "$root/examples/two-contact.trace" "$root/examples/door.sheet" "$root/examples/door.trace" .
try check-m check m.sheet
try check-two-contact check two-contact.sheet
try check-door check door.sheet

# ---- each number that a sheet can have
: >empty.sheet
printf '\010\000\010\040\000\000\000\000' >short.sheet
printf '\000' >one-state.sheet
printf '\010\000\010\100\000\000\000\000\200' >state-no.sheet
printf '\010\000\010\040\000\000\000\000\202' >input-no.sheet
printf '\010\000\010\040\000\000\000\000\252\252\200' >big.sheet
printf '\010\000\010\040\000\000\000\000\201' >tail.sheet
printf '\010\000\010\000\000\000\000\000\200' >loop.sheet
printf '\010\000\050\040\000\000\000\000\200\000\200\000\000\000\000\001\002\000\000\000\000' >pair.sheet
printf '\020\000\070\020\000\000\000\000\100\020\000\000\000\000\040\000\040\000\000\000\000\000\200\000\000\000\000' >rank.sheet
printf '\020\000\010\020\000\000\000\000\100' >no-home.sheet
printf '\010\000\010\040\002\000\000\000\200' >home-form.sheet
printf '\010\000\030\040\000\000\000\000\200\000\200\000\000\000\100' >gate.sheet
printf '\010\000\000\040\000\000\000\000\200' >activity.sheet
for sheet in empty short one-state state-no input-no big tail loop pair rank no-home home-form gate activity; do
    try "check-$sheet" check "$sheet.sheet"
done

# A file that is longer than any sheet has the answer of the whole file.
{ cat m.sheet; head -c 200000 /dev/zero; } >long.sheet
head -c 200000 /dev/zero | tr '\000' '\377' >ones.sheet
try check-long check long.sheet
try check-ones check ones.sheet
try check-missing check nothing.sheet
try check-folder check .

# ---- translation
try translate-m translate m.sheet m.code
printf '\001\000\000\001\004\000\000\000\002\000\000\000\003\000\000\000\006\000\000\000\010\000\000\001\011\000\000\000\014\000\000\011' >p11
printf '\015\000\000\017\013\000\000\000\016\000\000\000\015\000\000\017\012\000\000\000\016\000\000\000\015\000\000\017\000\000\000\000' >>p11
same translate-m-bytes m.code p11
try translate-two-contact translate two-contact.sheet two-contact.code
try translate-refused translate tail.sheet tail.code
if [ -e tail.code ]; then verdict translate-refused-no-file no; else verdict translate-refused-no-file yes; fi
cp p11 kept.code
try translate-refused-kept translate tail.sheet kept.code
same translate-refused-kept-bytes kept.code p11
try translate-no-folder translate m.sheet nothing/m.code

# The sheet is not its own code, by whatever name.
cp m.sheet y.sheet
ln -s y.sheet y.link
ln y.sheet y.hard
try translate-itself translate y.sheet y.sheet
try translate-itself-path translate y.sheet ./y.sheet
try translate-itself-link translate y.sheet y.link
try translate-itself-hard translate y.sheet y.hard
same translate-itself-kept y.sheet m.sheet
"$root/target/bin/chz" translate y.sheet y.sheet >out 2>err
same translate-itself-program y.sheet m.sheet

# A link stays a link, and the file that it leads to is replaced.
mkdir -p real
echo old >real/linked.code
ln -s real/linked.code linked.code
ln -s real/new.code new.code
ln -s around.code around.code
try translate-link translate m.sheet linked.code
same translate-link-bytes real/linked.code p11
try translate-link-new translate m.sheet new.code
same translate-link-new-bytes real/new.code p11
if [ -L linked.code ] && [ -L new.code ]; then verdict translate-link-kept yes; else verdict translate-link-kept no; fi
try translate-link-around translate m.sheet around.code

# Standard output and streams get the code alone; what is said goes to standard error.
stream() { # NAME: the code is in 'out', what was said in 'err'
    same "$1-bytes" out p11
    cp err got
    hold "$1"
}
"$root/chz" translate m.sheet - >out 2>err
stream translate-dash
if [ -e ./- ]; then verdict translate-dash-no-file no; else verdict translate-dash-no-file yes; fi
"$root/chz" translate m.sheet /dev/stdout >out 2>err
stream translate-dev-stdout
"$root/chz" translate m.sheet /dev/stdout 2>err | cat >out
stream translate-dev-stdout-pipe
ln -s /dev/stdout stdout.link
"$root/chz" translate m.sheet stdout.link 2>err | cat >out
stream translate-stdout-link
mkfifo code.pipe
cat code.pipe >out &
"$root/chz" translate m.sheet code.pipe 2>err >said
wait $!
stream translate-pipe
same translate-pipe-silent said /dev/null
echo before >out
"$root/chz" translate m.sheet /dev/fd/8 2>err 8>>out
{ echo before; cat p11; } >wanted
same translate-descriptor out wanted
"$root/chz" translate tail.sheet - >out 2>err
tell translate-dash-refused $?
try translate-null translate m.sheet /dev/null

# ---- code
try check-code check --code m.code
try check-code-missing check --code nothing.code
: >empty.code
printf '\377\000\000\000\000\000\000\000' >word.code
printf '\015\000\000\002\004\000\000\000\006\000\000\000\000\000\000\000' >landing.code
head -c 200000 /dev/zero >long.code
for code in empty word landing long; do try "check-code-$code" check --code "$code.code"; done

# ---- runs
try run-two-contact run two-contact.sheet two-contact.trace
try run-door run door.sheet door.trace
input=two-contact.trace
try run-standard-input run two-contact.sheet -
input=/dev/null
printf '# only remarks\n\n   \t\n' >remarks.trace
try run-remarks run m.sheet remarks.trace
printf '1 10\r\n\r\n  0\t5  # \303\266\r\n1 4294967295\n1 007\n' >forms.trace
try run-forms run m.sheet forms.trace
try run-refused run tail.sheet forms.trace
try run-no-trace run m.sheet nothing.trace
try run-trace-folder run m.sheet .

: >empty.trace
try run-empty run m.sheet empty.trace

# From a state and a clock: P13 and P14.
printf '111 1\n' >p13.trace
printf '111 0\n' >p14.trace
try run-p13 run --state 3 --clock 99 two-contact.sheet p13.trace
try run-p14 run two-contact.sheet --clock 99 p14.trace --state 3
try run-clock run --clock 4294967295 two-contact.sheet p14.trace
try run-state-no run --state 9 two-contact.sheet p13.trace
try run-state-over run --state 32 two-contact.sheet p13.trace
try run-clock-over run --clock 4294967296 two-contact.sheet p13.trace
try run-clock-word run --clock 9x two-contact.sheet p13.trace

# Code alone, and beside the reference of a sheet, which need not be its own.
try run-code run --code two-contact.code two-contact.trace
try run-code-state run --code two-contact.code --state 3 --clock 99 p13.trace
try run-code-beside run --code two-contact.code --sheet two-contact.sheet two-contact.trace
try run-code-differs run --code m.code --sheet two-contact.sheet two-contact.trace
try run-code-refused run --code word.code p13.trace
try run-code-sheet-refused run --code m.code --sheet tail.sheet p13.trace
try run-sheet run --sheet two-contact.sheet two-contact.trace
printf '\002\000\000\000\011\000\000\005\011\000\000\037\000\000\000\000' >flags.code
printf '0 1\n11 1\n0000000000000000 5\n' >flags.trace
try run-code-flags run --code flags.code flags.trace
printf '00000000000000000 5\n' >many.trace
try run-code-many run --code flags.code many.trace

# A trace that was cut, and carriage returns that end no line.
lines() { # NAME TEXT
    printf "$2" >"$1.trace"
    try "run-$1" run two-contact.sheet "$1.trace"
}
lines cut '100 10\n110 9'
lines cut-bits '100 10\n11'
lines cut-comment '100 10\n# the end'
lines cut-blank '100 10\n '
lines cut-return '100 10\n110 9\r'
lines return-comment '# made elsewhere\r100 10\r110 10\r'
lines return-inside '100\r10\n'
lines return-twice '100 10\r\r\n'
lines return-lines '100 10\r110 10\r'

# Each way in which a line can be bad. The scans before it stand.
bad() { # NAME LINE
    printf '# bad\n111 10\n%s\n000 1\n' "$2" >bad.trace
    try "run-bad-$1" run two-contact.sheet bad.trace
}
bad letter '11x 10'
bad few-bits '11 10'
bad many-bits '1110 10'
bad no-ms '110'
bad no-ms-comment '110 # 10'
bad few-bits-comment '11# 10'
bad signed-ms '110 -1'
bad fraction '110 1.5'
bad long-ms '110 4294967296'
bad longer-ms '110 99999999999999999999999999999999999'
bad late '110 10 7'

# A trace that needs many reads and many pages: the first and the last lines, and how many there are.
awk 'BEGIN { for (i = 0; i < 50000; i++) printf "1%d%d %d # scan %d\n", int(i / 3) % 2, int(i / 5) % 2, i % 120, i + 1 }' >long.trace
"$root/chz" run two-contact.sheet long.trace >out 2>err
{ echo "status $?"; head -n 4 out; wc -l <out | tr -d ' '; tail -n 3 out; cksum <out; cat err; } >got
hold run-long

# What cannot be written is a fault. A reader that closes the pipe early ends the program and nothing else.
if [ -w /dev/full ]; then
    "$root/chz" demo >/dev/full 2>err
    { echo "status $?"; cat err; } >got
    hold demo-full
    "$root/chz" run two-contact.sheet long.trace >/dev/full 2>err
    { echo "status $?"; cat err; } >got
    hold run-full
fi
{ "$root/chz" run two-contact.sheet long.trace 2>/dev/null; echo "status $?" >status; } | head -n 2 >got
cat status >>got
hold run-closed-pipe

# Columns that never touch, up to the largest numbers: each line has its fields, and they end where the head's do.
awk 'BEGIN { for (i = 0; i < 1000001; i++) print "1 4294967295" }' >large.trace
"$root/chz" run m.sheet large.trace >out 2>err
{
    echo "status $?"
    awk '/^ended/ { print; next } NR > 1 { n[NF] += 1; match($0, /  (cold start|moved|stayed)$/); ends[RSTART] += 1 }
        END { for (i in n) print n[i] " lines with " i " fields"; for (i in ends) print ends[i] " end at " i }' out | sort
    sed -n '1p; 3p; 1000002p' out
} >got
hold run-columns

# ---- names that a terminal must not be given as they are
name=$(printf 'a\033[31mb\nc')
"$root/chz" check "$name" >out 2>err
tell name-check $?
"$root/chz" translate m.sheet "no/$name" >out 2>err
tell name-translate $?
"$root/chz" run m.sheet "$name" >out 2>err
tell name-run $?
"$root/chz" "$name" >out 2>err
tell name-command $?
cp m.sheet "$name"
"$root/chz" translate "$name" "$name" >out 2>err
tell name-itself $?

# ---- nothing is lost, whatever happens: CODE is the old one or the whole new one, and no other file is left
cp two-contact.code new.bytes
echo old >old.bytes
mkdir kept
whole() { # NAME: kept/two.code is old or new, and alone
    if { cmp -s kept/two.code old.bytes || cmp -s kept/two.code new.bytes; } && [ "$(ls -A kept)" = two.code ]; then
        return 0
    fi
    verdict "$1" no
    ls -lA kept
    rm -rf kept
    mkdir kept
    return 1
}
cp old.bytes kept/two.code
(ulimit -f 1 && exec "$root/chz" translate two-contact.sheet kept/two.code) >out 2>err
tell translate-size-limit $?
whole translate-size-limit-whole && same translate-size-limit-kept kept/two.code old.bytes
if [ "$(id -u)" = 0 ]; then
    user='setpriv --reuid=65534 --regid=65534 --clear-groups'
else
    user=''
fi
chmod 755 . kept
chmod 644 kept/two.code two-contact.sheet
if [ "$(id -u)" != 0 ] || $user "$root/chz" version >/dev/null 2>&1; then
    [ -n "$user" ] || chmod 555 kept
    $user "$root/chz" translate two-contact.sheet kept/two.code >out 2>err
    tell translate-read-only-file $?
    chmod 666 kept/two.code
    $user "$root/chz" translate two-contact.sheet kept/two.code >out 2>err
    tell translate-read-only-folder $?
    chmod 755 kept
    whole translate-read-only-whole && same translate-read-only-kept kept/two.code old.bytes
else
    echo 'skipped: the tests with a read-only folder need a user who is not root and reaches this one'
fi

# The same at every call that the program makes on a file, by a library that is loaded before it.
compiler=$(command -v cc || command -v gcc)
if [ "$(uname -m)" = x86_64 ] && [ -n "$compiler" ] && "$compiler" -shared -fPIC -O1 -o stop.so "$here/stop.c" -ldl; then
    calls=0 ended=137 good=yes
    while [ "$ended" -eq 137 ] && [ "$calls" -lt 100 ]; do
        calls=$((calls + 1))
        cp old.bytes kept/two.code
        LD_PRELOAD=$room/stop.so CHZ_KILL=$calls "$root/chz" translate two-contact.sheet kept/two.code >out 2>err
        ended=$?
        whole translate-killed || good=no
    done
    { echo "killed at $((calls - 1)) calls, then status $ended"; } >got
    hold translate-killed-calls
    verdict translate-killed-whole "$good"
    good=yes
    for call in $(seq 1 "$((calls - 1))"); do
        cp old.bytes kept/two.code
        LD_PRELOAD=$room/stop.so CHZ_FAIL=$call "$root/chz" translate two-contact.sheet kept/two.code >out 2>err
        echo "call $call: status $?, $(cmp -s kept/two.code old.bytes && echo old || echo new)" "$(cat err)"
        whole translate-failed || good=no
    done >got
    hold translate-failed-calls
    verdict translate-failed-whole "$good"
    LD_PRELOAD=$room/stop.so CHZ_AGAIN=1 "$root/chz" run two-contact.sheet - <two-contact.trace >out 2>err
    tell run-interrupted $?
    LD_PRELOAD=$room/stop.so CHZ_AGAIN=1 "$root/chz" translate two-contact.sheet kept/two.code >out 2>err
    tell translate-interrupted $?
    same translate-interrupted-bytes kept/two.code new.bytes
else
    echo 'skipped: the tests that stop the program at each call need a C compiler on x86-64'
fi

# ---- the launcher
"$root/chz" demo >&- 2>err
{ echo "status $?"; cat err; } >got
hold closed-output
cp p11 closed.code
"$root/chz" translate two-contact.sheet closed.code >&- 2>err
same closed-output-kept closed.code p11
"$root/chz" run m.sheet - <&- >out 2>err
tell closed-input $?
: >err
"$root/chz" translate two-contact.sheet closed.code >out 2>&-
tell closed-error $?
same closed-error-bytes closed.code new.bytes

# With CDPATH, cd goes elsewhere and prints where.
ln -s "$root" repo
mkdir -p elsewhere/repo
(CDPATH=$room/elsewhere:$room && export CDPATH && repo/chz version) >out 2>err
tell cdpath $?
if [ -z "$(ls -A elsewhere/repo)" ]; then verdict cdpath-no-folder yes; else verdict cdpath-no-folder no; fi

# Whoever ends the launcher ends the program: nobody reads its pipe then.
mkfifo slow.pipe
for signal in TERM HUP; do
    exec 7<>slow.pipe # both ends, so that no open waits
    "$root/chz" run m.sheet slow.pipe >out 2>err 7<&- &
    launcher=$!
    printf '1 5\n' >&7
    tries=0
    until grep -q stayed out || [ "$tries" -eq 100 ]; do
        sleep 0.1
        tries=$((tries + 1))
    done
    exec 8>slow.pipe 7<&-
    kill -s "$signal" "$launcher"
    wait "$launcher" 2>/dev/null
    status=$?
    if (printf '1 5\n' >&8) 2>/dev/null; then status="$status, and the program still reads"; fi
    exec 8>&-
    echo "$signal: status $status"
done >got
hold launcher-ended
if command -v timeout >/dev/null; then
    sleep 3 | timeout --preserve-status -s INT 1 "$root/chz" run m.sheet - >out 2>err
    echo "INT: status $?" >got
    hold launcher-interrupted
fi

# An installed launcher is this one with a line of its own between the marks.
if [ "$(uname -m)" = x86_64 ]; then
    mkdir -p 'in stalled'
    cp "$root/target/bin/chz" 'in stalled/chz'
    sed "/^# ---- where/,/^# ---- how/c\\
program='$room/in stalled/chz'" "$root/chz" >installed
    chmod +x installed
    PATH=/usr/bin:/bin ./installed check tail.sheet >out 2>err
    tell installed $?
fi

# The build shows how far it is: a launcher in a folder of its own, with an rt that only says what rt says.
if [ "$(uname -m)" = x86_64 ]; then
    mkdir -p "build here/crates/chz" bin
    cp "$root/chz" "build here/chz"
    printf '# crates\none:\ntwo: one io\nother: one\nchz: two one libc\n' >"build here/crates.txt"
    cat >bin/rt <<'RT'
#!/bin/sh
# In the folder of the crate: 'rt run -- version'.
[ "$(basename "$PWD") $*" = 'chz run -- version' ] || exit 1
echo 'rt: one proved (7 s)'
echo 'crate one: modules loaded=0 checked=7'
echo 'logic=proved functions=1'
sleep 1.5
echo 'rt: two proved (unchanged since it was last proved)'
echo 'crate two: modules loaded=7 checked=0'
echo 'logic=proved functions=1'
sleep 1.5
[ ! -e ../../broken ] || { echo 'crate chz: modules loaded=0 checked=7'; echo 'logic=not-proved'; echo 'rt: chz NOT PROVED (exit 1, 2 s)'; exit 1; }
mkdir -p out
printf '#!/bin/sh\necho built\n' >out/chz
chmod +x out/chz
RT
    chmod +x bin/rt
    : >"build here/broken"
    PATH="$room/bin:$PATH" "build here/chz" version >out 2>err
    status=$?
    sed 's/, *[0-9]* s:/, N s:/' err >err.times
    mv err.times err
    tell build-broken "$status"
    rm "build here/broken"
    PATH="$room/bin:$PATH" "build here/chz" version >out 2>err
    status=$?
    sed 's/, *[0-9]* s:/, N s:/' err >err.times
    mv err.times err
    tell build "$status"
fi

# ---- the pages: what they have people make, git ignores, and the README's line makes what it says
if git -C "$root" rev-parse >/dev/null 2>&1; then
    for file in tail.sheet two-contact.code door.code first first.c; do
        git -C "$root" check-ignore -q "$file" || echo "$file is not ignored"
    done >got
    same pages-ignored got /dev/null
fi
line=$(grep -m 1 '> tail.sheet$' "$root/README.md")
(mkdir page && cd page && eval "${line#*\$ }")
same pages-tail page/tail.sheet tail.sheet

# ---- one sheet, kept in three places
"$root/chz" demo | tail -n +5 >demo.lines
"$root/chz" run two-contact.sheet two-contact.trace >run.lines
same demo-is-the-example demo.lines run.lines
same cases-has-the-example "$root/crates/cases/data/two-contact.sheet" two-contact.sheet

echo "chz: $passed passed, $failed failed"
[ "$failed" -eq 0 ]
