#!/usr/bin/env python3
"""Brings the names of definitions, fields and lemmas to one spelling: words in snake case, types in camel case.

    python3 tools/respell.py        once, at the top, right after the kit's own port.py

It was run once, when the repository was brought from an older Rattle to today's, and is kept so that the same spelling can be made
again from the older text. It turns the antt files, the clauses and ghost items of the Rattle files, the must-fail edits of specs/
and what stands in backquotes on the pages. NAMES is what it turns itself; PORTED is what port.py had turned, which edits and
pages still had in the older spelling. Names that would have fallen together are in HERE, by folder.

Kept as they are: functions of src/ and exported names; the mnemonics of document 01 (LDS, R, S, JMPC ..), which in small letters would
be the variables `r` and `s` and the library's `not`, and the walk's items beside them; a dash that joins two names in a lemma.
"""
import os
import re

NAMES = dict(line.split(' ') for line in '''
active-else active_else
active-idle active_idle
activityRow activity_row
alikeBelow alike_below
andF and_f
anyBelow any_below
arrowAt arrow_at
arrowKey arrow_key
arrowLen arrow_len
arrowReach arrow_reach
at-condition at_condition
at-destination at_destination
at-input at_input
at-inputs at_inputs
at-operand at_operand
at-outputs at_outputs
at-priority at_priority
at-states at_states
at-transitions at_transitions
at-wait at_wait
atClock at_clock
bitNo bit_no
bitNo-lt bit_no-lt
blockLeft block_left
blockOne block_one
blocks-in-order blocks_in_order
blocksBy blocks_by
blocksLen blocks_len
blocksLen-append blocks_len-append
blocksLen-more blocks_len-more
breaksArrow breaks_arrow
byNumber by_number
checkBy check_by
checkCode check_code
checkSheet check_sheet
clashArrows clash_arrows
clashBelow clash_below
clock-is clock_is
clockGate clock_gate
code-accepted code_accepted
code-end code_end
code-refused code_refused
code-run code_run
codeByte code_byte
codeNo code_no
cold-all cold_all
coldOf cold_of
coldRecord cold_record
coldRun cold_run
coldScan cold_scan
condBits cond_bits
condEnd cond_end
condReach cond_reach
conditionAt condition_at
countBelow count_below
depthAt depth_at
endFault end_fault
faultAt fault_at
first-bytes first_bytes
first-only first_only
first-row first_row
first-source first_source
firstAlike first_alike
firstAmong first_among
firstBelow first_below
firstBits first_bits
firstBreak first_break
firstClash first_clash
firstFault first_fault
firstLanding first_landing
flagTo flag_to
flags-is flags_is
forgetNames forget_names
forgetRow forget_row
fromEnd from_end
gate-accepts gate_accepts
gate-leaves gate_leaves
gate-refuses gate_refuses
gate-tried gate_tried
gate-untested gate_untested
gateCode gate_code
getBit get_bit
goesHome goes_home
hands-back hands_back
hasHome has_home
headerBits header_bits
hereOr here_or
hold-changes-none hold_changes_none
home-form home_form
homeArrow home_arrow
inBytes in_bytes
input-no input_no
inputs-ignored inputs_ignored
insert-blocksLen insert-blocks_len
intoOf into_of
isGated is_gated
isOff is_off
isOn is_on
itemNo item_no
itemWord item_word
joinAll join_all
joinFacts join_facts
joinTop join_top
judgeArrows judge_arrows
judgeBy judge_by
judgeForms judge_forms
judgeRead judge_read
judgeReadBy judge_read_by
judgedOr judged_or
lOf l_of
lacksBit lacks_bit
lacksGate lacks_gate
lacksHome lacks_home
lacksHomeArrow lacks_home_arrow
lacksHomeForm lacks_home_form
landsOpen lands_open
left-gives left_gives
length-is length_is
length-rule length_rule
mOf m_of
machIn mach_in
machOf mach_of
machWith mach_with
mostWords most_words
movedOf moved_of
moves-as-published moves_as_published
nBytes n_bytes
negFacts neg_facts
next-source next_source
no-home no_home
no-invented-room no_invented_room
no-state no_state
noRecord no_record
noTransition no_transition
nodeAt node_at
not-gone not_gone
nothing-3 nothing_3
numOf-lt num_of-lt
numOf-pad num_of-pad
numOf-take num_of-take
numOf-zeros num_of-zeros
of-sheet of_sheet
one-gives one_gives
one-move one_move
one-runner one_runner
one-scan one_scan
one-sheet one_sheet
only-end-3 only_end_3
operandOf operand_of
operandsAt operands_at
orAt or_at
orF or_f
orShort or_short
our-check our_check
our-code our_code
our-translator our_translator
outBy out_by
outTo out_to
outputWord output_word
outputs-is outputs_is
outputsOf outputs_of
p11-room p11_room
p11-untouched p11_untouched
p12-code p12_code
p3-bits p3_bits
pickForm pick_form
pickGot pick_got
pickValue pick_value
ranBy ran_by
ranWith ran_with
read-formed read_formed
read-written read_written
readField read_field
readHeader read_header
readOr read_or
readSheet read_sheet
recordOf record_of
recordWith record_with
refAfter ref_after
refusalOf refusal_of
refuseAt refuse_at
rowCode row_code
rowsBits rows_bits
rowsIn rows_in
rowsMany rows_many
run-accepted run_accepted
runAfter run_after
runCode run_code
runScan run_scan
runThree run_three
runZeroing run_zeroing
sameRank same_rank
scan-accepted scan_accepted
scanOf scan_of
scanOf-same scan_of-same
scanSheet scan_sheet
scannedWith scanned_with
sheet-cold-run sheet_cold_run
sheet-cold-scan sheet_cold_scan
sheet-scan sheet_scan
sheet-translate sheet_translate
sheetBits sheet_bits
sheetIn sheet_in
sheetM sheet_m
sheetOf sheet_of
sheetOr sheet_or
sheets-accepted sheets_accepted
sheets-refused sheets_refused
sinceChange since_change
single-at-c single_at_c
single-outcome single_outcome
sort-blocksLen sort-blocks_len
state-is state_is
state-no state_no
stateAt state_at
stateBlocks state_blocks
stateBy state_by
stateWith state_with
sumBelow sum_below
sumOver sum_over
three-gives three_gives
three-late three_late
tookOf took_of
transitionAt transition_at
transitionBits transition_bits
transitionOf transition_of
transitionsBits transitions_bits
translateBy translate_by
translateInto translate_into
translateLeft translate_left
translateOne translate_one
translateTwo translate_two
translation-passes translation_passes
two-accepted two_accepted
two-drawn two_drawn
two-gives two_gives
two-read two_read
two-sizes two_sizes
twoArcs two_arcs
twoContact two_contact
twoRows two_rows
twoSheet two_sheet
waitCode wait_code
waitCount wait_count
walkAt walk_at
withClock with_clock
withOutputs with_outputs
withSheet with_sheet
wordCount word_count
wordNo word_no
written-bytes written_bytes
writtenWith written_with
wrongActivity wrong_activity
zeroing-gives zeroing_gives
'''.split('\n') if line)

PORTED = dict(line.split(' ') for line in '''
above-down above_down
add-at add_at
add-done add_done
add-r add_r
add-step add_step
add-wide add_wide
add-words add_words
all-insert all_insert
all-map all_map
all-of all_of
and-both and_both
and-yes and_yes
any-of any_of
any-same any_same
apart-of apart_of
at-most at_most
at-rest at_rest
at-second at_second
bind-ok bind_ok
bit-is bit_is
bit-le bit_le
bit-word bit_word
bitAt bit_at
bits-back bits_back
bits-below bits_below
bitsOf bits_of
block-run block_run
block-words block_words
blockLen block_len
blocks-is blocks_is
blocks-more blocks_more
by-first by_first
bytes-below bytes_below
bytesOf bytes_of
choose-spec choose_spec
code-fits code_fits
code-is code_is
codeIn code_in
codeOf code_of
cold-is cold_is
cond-short cond_short
condAt cond_at
condCode cond_code
cut-all cut_all
cut-fits cut_fits
decode-is decode_is
depth-pos depth_pos
digit-lt digit_lt
each-append each_append
each-snoc each_snoc
each-spec each_spec
endAt end_at
endsAt ends_at
enum-told enum_told
factsOf facts_of
few-bytes few_bytes
fieldAt field_at
first-of first_of
first-then first_then
formOf form_of
found-below found_below
from-zero from_zero
going-start going_start
guard-ok guard_ok
half-pow half_pow
headBits head_bits
headOf head_of
held-same held_same
here-reads here_reads
idle-code idle_code
inputAt input_at
insert-all insert_all
jump-ok jump_ok
kOf k_of
key-spec key_spec
keyAt key_at
keyOf key_of
known-is known_is
left-down left_down
left-up left_up
merge-step merge_step
mul-next mul_next
nOf n_of
namesAt names_at
next-row next_row
no-bytes no_bytes
no-code no_code
no-longer no_longer
no-loop no_loop
no-run no_run
not-short not_short
not-yes not_yes
numAt num_at
numOf num_of
numberOf number_of
odd-pow odd_pow
one-passes one_passes
one-shl one_shl
one-state one_state
only-end only_end
or-at or_at
or-left or_left
or-no or_no
or-right or_right
pair-is pair_is
place-at place_at
placeOf place_of
put-spec put_spec
put-up put_up
putAll put_all
putBit put_bit
rank-is rank_is
read-at read_at
read-first read_first
read-fits read_fits
read-here read_here
read-short read_short
refusal-is refusal_is
restAt rest_at
row-next row_next
row-reads row_reads
rowAt row_at
rowOf row_of
rows-append rows_append
rows-are rows_are
rows-end rows_end
rows-join rows_join
rows-next rows_next
run-at run_at
run-by run_by
run-of run_of
run-spec run_spec
run-step run_step
same-length same_length
same-not same_not
samePair same_pair
scan-step scan_step
short-ok short_ok
shr-word shr_word
sorted-insert sorted_insert
source-fits source_fits
stands-read stands_read
step-spec step_spec
sum-first sum_first
toBytes to_bytes
too-long too_long
two-bytes two_bytes
two-run two_run
upto-next upto_next
withFlags with_flags
word-at word_at
word-bytes word_bytes
word-lt word_lt
word-more word_more
wordAt word_at
wordOf word_of
words-are words_are
wordsIn words_in
wordsOf words_of
written-is written_is
written-read written_read
wrote-none wrote_none
'''.split('\n') if line)

# Fields that would be named as the functions that their own types speak of; lemmas that would be named as a definition.
FIELDS = {name: 'for_' + name.replace('-', '_') for name in ('check-code', 'check-sheet', 'cold-run', 'cold-scan')}
HERE = {
    'promises/specs/Single.antt': FIELDS,
    'promises/proofs/SingleProof.antt': FIELDS,
    'recorder/specs/Single.antt': FIELDS,
    'recorder/proofs/SingleProof.antt': FIELDS,
    'refusals/specs/Left.antt': FIELDS,
    'refusals/proofs/LeftProof.antt': FIELDS,
    'rules/proofs/Search.antt': {'or_at': 'or_at_lem'},
    'words/proofs/': {'word_at': 'word_at_lem'},
}

WORD = re.compile(r'[^\s(){}\[\],.;:«»|`"]+')


def turned(text, names):
    return WORD.sub(lambda word: names.get(word.group(0), word.group(0)), text)


def here(path):
    names = {}
    for place, more in HERE.items():
        if path.startswith('crates/' + place):
            names = {**names, **more}
    return names


def respell(path):
    with open(path, encoding='utf-8') as file:
        text = file.read()
    names = {**NAMES, **here(path)}
    lines = text.split('\n')
    if path.endswith('.antt'):
        lines = [turned(line, names) for line in lines]
    elif path.endswith('.rt'):
        ghost = ('ghost ', 'requires ', 'ensures ', '//')
        lines = [turned(line, names) if line.lstrip().startswith(ghost) else line for line in lines]
    elif path.endswith('.edit'):
        if any(line.startswith('file: specs/') for line in lines):
            every = {**PORTED, **names}
            lines = [turned(line, every) if line.startswith(('old:', 'new:')) else line for line in lines]
    else:
        every = {**PORTED, **NAMES}
        lines = [re.sub(r'`[^`]+`', lambda quoted: turned(quoted.group(0), every), line) for line in lines]
    if '\n'.join(lines) != text:
        with open(path, 'w', encoding='utf-8') as file:
            file.write('\n'.join(lines))


def main():
    for folder, folders, files in os.walk('crates'):
        folders[:] = [name for name in folders if name != 'out']
        for name in files:
            if name.endswith(('.antt', '.rt', '.edit')):
                respell(os.path.join(folder, name))
    for page in ['README.md'] + ['docs/' + name for name in sorted(os.listdir('docs')) if name.endswith('.md')]:
        respell(page)


if __name__ == '__main__':
    main()
