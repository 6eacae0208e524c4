#!/bin/sh
# Builds wrong libraries out of the second program, one fault each, and holds
# differ against each of them: every one must be caught. A differential test
# that lets a wrong library pass is worth nothing, and this is how we know.
#
# A line below is a name, a bar, and the edit that makes the fault. An edit
# that changes nothing, or makes what does not compile, is a test that failed:
# the others are still tried.
#
#     CC   the compiler, with what it needs to link
#     RUN  what a program is run under
#     OUT  where differ's objects are, and where the wrong libraries go
#     DIFFER  those objects, all but the library

set -u
cc=${CC:-gcc}
out=${OUT:-../target/host}
dir=$out/mutants
mkdir -p "$dir" || exit 2
sed -e 's/second_/chz_/g' second.c >"$dir/right.c" || exit 2

caught=0
missed=0

miss() {
    missed=$((missed + 1))
    printf 'MISSED  %s: %s\n' "$name" "$1"
}

while IFS= read -r line; do
    case $line in '' | '#'*) continue ;; esac
    name=$(printf '%s\n' "${line%%|*}" | sed 's/ *$//')
    edit=${line#*|}
    file=$dir/$(printf '%s\n' "$name" | tr -c 'A-Za-z0-9\n' '_').c
    if ! sed -e "$edit" "$dir/right.c" >"$file"; then
        miss 'the edit is no edit'
    elif cmp -s "$dir/right.c" "$file"; then
        miss 'the edit changes nothing'
    elif ! $cc -std=c11 -O1 -w -I../include -I. -c "$file" -o "$dir/mutant.o" 2>"$dir/answer" ||
        ! $cc $DIFFER "$dir/mutant.o" -o "$dir/mutant" 2>"$dir/answer"; then
        miss "it does not compile: $(head -n 1 "$dir/answer")"
    else
        ${RUN:-} "$dir/mutant" >"$dir/answer" 2>&1 </dev/null
        status=$?
        if [ "$status" = 1 ] || [ "$status" = 3 ]; then
            caught=$((caught + 1))
            printf 'caught  %s: %s (%s)\n' "$name" "$(sed -n 's/^MISMATCH: //p' "$dir/answer")" \
                "$(sed -n 's/.*(family: \(.*\))/\1/p' "$dir/answer")"
        else
            miss "status $status"
        fi
    fi
done <<'LIST'
# Easy to get wrong, by document 01
block without its jump                 | s/code = put(code, JMPC, .*/code = put(code, LDI, 0);/
a second transition in one scan        | s/best = t;/best = t; *state = t->destination;/
blocks in sheet order                  | s/key\[j - 1\] > k;/key[j - 1] > k \&\& 0;/
scan adds the elapsed time afterwards  | s/now >= t->wait/*clock >= t->wait/
run adds the elapsed time afterwards   | s/now >= operand/*clock >= operand/
scan zeroes the clock where it stays   | s/^    \*clock = now;/    *clock = best ? now : 0;/
R after the jump                       | s/code = put(code, R, t->source);//; s/code = put(code, JMPC, .*/& code = put(code, R, t->source);/
GATE judged by one try                 | s/^static struct answer judge(/static bool holds(const uint8_t *, uint32_t, uint32_t); &/; s/!(node\[0\] == INPUT_0 || (node\[0\] == NODE_AND && node\[1\] == INPUT_0))/holds(node, t[i].nodes, 0xFFFE)/
# Reading
STATE-NO one late                      | s/refused(CHZ_STATE_NO, r.at - 5)/refused(CHZ_STATE_NO, r.at - 4)/
state n allowed                        | s/field >= s->states/field > s->states/
input k allowed                        | s/number >= s->inputs/number > s->inputs/
INPUT-NO at its tag                    | s/refused(CHZ_INPUT_NO, r->at - 4)/refused(CHZ_INPUT_NO, r->at - 6)/
32 nodes allowed                       | s/nodes == MOST_NODES/nodes == MOST_NODES + 1/
31 nodes refused                       | s/nodes == MOST_NODES/nodes == MOST_NODES - 1/
depth 9 allowed                        | s/depth > MOST_DEPTH/depth > MOST_DEPTH + 1/
depth 8 refused                        | s/depth > MOST_DEPTH/depth >= MOST_DEPTH/
BIG after its tag                      | s/refused(CHZ_BIG, r->at - 2)/refused(CHZ_BIG, r->at)/
BIG where a 32nd tag isn't there       | s/if (!take(r, 2, &tag)) {/if (nodes == MOST_NODES) return refused(CHZ_BIG, r->at); &/
BIG where a ninth deep tag isn't there | s/if (!take(r, 2, &tag)) {/if (depth > MOST_DEPTH) return refused(CHZ_BIG, r->at); &/
SHORT of a number before BIG           | s/if (nodes == MOST_NODES ||/if (tag == INPUT \&\& r->bits - r->at < 4) return refused(CHZ_SHORT, r->at); &/
INPUT-NO of a 32nd node before BIG     | s/if (nodes == MOST_NODES ||/struct reader ahead = *r; if (tag == INPUT \&\& take(\&ahead, 4, \&number) \&\& number >= s->inputs) return refused(CHZ_INPUT_NO, r->at); &/
spare bits not looked at               | s/if (field != 0) {/if (0) {/
a further byte allowed                 | s/if (r.at != r.bits) {/if (0) {/
TAIL at the end of the byte            | s/refused(CHZ_TAIL, end)/refused(CHZ_TAIL, r.at)/
a wait of 23 bits                      | s/t->wait = field;/t->wait = field \& 0x7FFFFF;/
outputs the other way round            | s/field >> (s->outputs - 1 - output)/field >> output/
reads past the end                     | s/if (left >= 4) {/if (1) {/
# Rules
LOOP not judged                        | s/t\[i\].source == t\[i\].destination/0/
PAIR at an earlier one                 | s/refused(CHZ_PAIR, i)/refused(CHZ_PAIR, i - 1)/
PAIR not judged                        | s/if (reached\[t\[i\].source\] & bit)/if (0)/
RANK not judged                        | s/if (\*half & bit)/if (0)/
RANK forgets the high priorities       | s/uint64_t bit = UINT64_C(1) << t\[i\].priority % 64/uint64_t bit = UINT64_C(1) << t[i].priority/; s/ranks\[t\[i\].source\]\[t\[i\].priority \/ 64\]/ranks[t[i].source][0]/
NO-HOME from state 2 on                | s/for (uint32_t state = 1;/for (uint32_t state = 2;/
ACTIVITY judged before the others      | s/^    const struct transition \*t = s->transition;/& if (!(s->row[0] \& 1)) return refused(CHZ_ACTIVITY, 0);/
ACTIVITY for state 0 alone             | s/active != (state == 0)/state == 0 \&\& !active/
home with a wait                       | s/t\[i\].wait == 0 && //
home with a priority                   | s/t\[i\].priority == 0 && //
home by another input                  | s/node\[0\] == NODE_NOT && node\[1\] == INPUT_0/node[0] == NODE_NOT \&\& node[1] < 16/
a gate of OR                           | s/(node\[0\] == NODE_AND && node\[1\] == INPUT_0)/(node[0] >= NODE_AND \&\& node[1] == INPUT_0)/
# Translation
a byte past the code                   | s/^    put(code, END, 0);/    put(code, END, 0)[0] = 0;/
END not written                        | s/^    put(code, END, 0);//
a refused translation writes           | s/a = refused(CHZ_ROOM, needed);/if (code_len != 0) code[0] ^= 1; &/
ROOM with just enough                  | s/needed > code_len/needed >= code_len/
ROOM with a word too little            | s/needed > code_len/needed > code_len + 4/
ROOM with its place invented           | s/refused(CHZ_ROOM, needed)/refused(CHZ_ROOM, needed + 4)/
a length where refused                 | s/^    \*length = 0;/    *length = 4;/
no ANDT                                | s/if (t->wait != 0) {/if (0) {/
RA never written                       | s/? SA : RA/? SA : SA/
AND( for OR(                           | s/? AND_OPEN : OR_OPEN/? AND_OPEN : AND_OPEN/
# The scan
the largest priority fires             | s/t->priority < best->priority/t->priority > best->priority/
the first in the sheet fires           | s/t->priority < best->priority/0/
a wait must be passed                  | s/now >= t->wait/now > t->wait/
the clock runs on after a change       | s/^        now = 0;$//
state n scanned                        | s/\*state >= s.states/*state > s.states/
NO-STATE at n                          | s/refused(CHZ_NO_STATE, \*state)/refused(CHZ_NO_STATE, s.states)/
a refused cold start keeps its flag    | s/\*flags = a.number == CHZ_OK ? 1 : 0/*flags = 1/
a cold start without outputs           | s/\*outputs = a.number == CHZ_OK ? s.row\[0\] : 0/*outputs = 0/
the clock wraps                        | s/(uint64_t)clock + elapsed/(uint32_t)(clock + elapsed)/
the clock is not held                  | s/return sum < CHZ_CLOCK_MAX ? (uint32_t)sum : CHZ_CLOCK_MAX/return (uint32_t)sum/
the clock is held one early            | s/(uint32_t)sum : CHZ_CLOCK_MAX/(uint32_t)sum : CHZ_CLOCK_MAX - 1/
a state written as four bytes          | s/\*state = best->destination;/*(uint32_t *)(void *)state = best->destination;/
eight inputs only                      | s/inputs >> (node\[nodes\] & 15) & 1/inputs >> (node[nodes] \& 7) \& 1/
# The code check
code of the limit refused              | s/len > CHZ_CODE_LIMIT/len >= CHZ_CODE_LIMIT/
code over the limit allowed            | s/len > CHZ_CODE_LIMIT/len > CHZ_CODE_LIMIT + 4/
the last word may be any               | s/ || code\[len - 4\] != END//
a ninth open allowed                   | s/open == MOST_OPEN/open > MOST_OPEN/
an eighth open refused                 | s/open == MOST_OPEN/open == MOST_OPEN - 1/
LDS or END with one open               | s/open != 0 || operand > largest/operand > largest/
a jump with one open                   | s/open != 0 || operand <= w/operand <= w/
a jump to its own word                 | s/operand <= w/operand < w/
a jump just out of the code            | s/operand >= words/operand > words/
flag 32 allowed                        | s/\[R\] = 31/[R] = 32/
output 16 allowed                      | s/\[SA\] = 15/[SA] = 16/
NOT with an operand                    | s/\[LDI\] = 15/[LDI] = 15, [TURN] = 1/
TRES with an operand                   | s/\[LDI\] = 15/[LDI] = 15, [TRES] = 0xFFFFFF/
) with an operand                      | s/open == 0 || operand != 0/open == 0/
) with nothing open                    | s/open == 0 || operand != 0/operand != 0/
LANDING not judged                     | s/astray = true;//
LANDING before WORD                    | s/astray = true;/return refused(CHZ_LANDING, w);/
LANDING at the last jump to it         | s/if (astray) {/if (astray) for (uint32_t v = words; v-- > 0;) { uint32_t x = word_at(code + 4 * v), y = x \& 0xFFFFFF; if ((x >> 24 == JMPC || x >> 24 == JMP) \&\& (target[y \/ 64] >> y % 64 \& 1)) return refused(CHZ_LANDING, v); } if (astray) {/
# The runner
the result starts true                 | s/uint32_t result = 0;/uint32_t result = 1;/
AND( takes the result away             | s/ors = ors << 1;/ors = ors << 1; result = 0;/
) joins by AND alone                   | s/ors & 1 ? (aside/0 ? (aside/
) keeps what was put aside             | s/^            aside >>= 1;//
TRES only when true                    | s/^            now = 0;$/            if (result) now = 0;/
JMP only when true                     | s/^            at = code + 4 \* operand - 4;/            if (result) &/
R though false                         | s/f &= ~(result << operand)/f \&= ~(UINT32_C(1) << operand)/
flags of 31 bits                       | s/f |= result << operand/f |= (result << operand) \& 0x7FFFFFFF/
outputs of 8 bits                      | s/\*outputs = (uint16_t)o;/*outputs = (uint8_t)o;/
a refused run brings the clock forward | s/struct answer a = judge_code(code, code_len);/& if (a.number) *clock = 0;/; /chz_check_code/,/^}/s/ if (a.number) \*clock = 0;//
a place left where accepted            | s/^    \*place = a.place;/    if (a.number) &/
LIST

printf '%d wrong libraries caught, %d missed\n' "$caught" "$missed"
[ "$missed" = 0 ] && [ "$caught" -gt 0 ]
