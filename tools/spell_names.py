#!/usr/bin/env python3
"""Spells this repository's own definitions and lemmas as the newer Rattle does: words in snake case, a dash
only between the names of two definitions, `_lem` after a lemma that would have its definition's name.

usage: python3 tools/spell_names.py   at the top of the repository, once, right after Rattle's port.py

The table is complete and its new names are distinct. One of them is another's older one (`first_part`), so nothing is
changed where the older spelling is gone. A dashed name is respelled in code alone, since a comment may hold the same
words as plain English.
"""
import os
import re

TABLE = """
address-after address_after
address-answers address_answers
afterAll after_all
alias-word alias_word
aliasAt alias_at
aliasNumber alias_number
aliasOf alias_of
alignedDown aligned_down
all-calm all_calm
all-getD-or all-get_or
answerCode answer_code
any-written any_written
atFourth at_fourth
bank-path bank_path
bankOf bank_of
base-below base_below
before-tick before_tick
bit-and bit-bit_and
bit-by bit_by
bit-by-digit bit_by_digit
bit-even bit_even
bit-half bit_half
bit-linear bit_linear
bit-or bit-bit_or
bit-xor bit-bit_xor
bitStep bit_step
bitSteps bit_steps
boardWritten board_written
both-sized both_sized
busRead bus_read
busWrite bus_write
by-cleared by_cleared
byte-is byte_is
byteBoard byte_board
byteReply byte_reply
byteState byte_state
byteStep byte_step
calm-end calm_end
calm-ends calm_ends
calm-low calm_low
calm-on calm_on
calm-stopped calm_stopped
calm-timerOf calm-timer_of
calm-within calm_within
check-after check_after
check-answers check_answers
clear-bit clear_bit
clearedBit cleared_bit
clock-idle clock_idle
clock-pair clock_pair
clock-running clock_running
clock-still clock_still
clock-stopped clock_stopped
clocks-of clocks_of
clocks-sized clocks_sized
cond-assoc cond_assoc
cond-cond cond_cond
contentOf content_of
coreWord core_word
count-before count_before
count-round count_round
counts-after counts_after
crcOf crc_of
crcValue crc_value
cutBy cut_by
decides-pin decides_pin
div-carry div_carry
done-mapped done_mapped
done-second done_second
doneCode done_code
each-cleared each_cleared
each-written each_written
either-assoc either_assoc
emptyField empty_field
exchangeAnswer exchange_answer
exchangeState exchange_state
feed-pair feed_pair
feed-sized feed_sized
first-flag first_flag
first-sized first_sized
firstPart first_part
first_part first_part_lem
flag-some flag_some
flag-still flag_still
flags-back flags_back
flags-end flags_end
flags-lt flags_lt
flags-none flags_none
flags-or flags_or
flags-same flags_same
flags-small flags_small
flags-tell flags_tell
found-done found_done
found-kept found_kept
found-stands found_stands
found-with found_with
framed-after framed_after
framed-answers framed_answers
good-steps good_steps
gpioKeeps gpio_keeps
gpioModel gpio_model
hasMemory has_memory
high-at high_at
high-before high_before
high-below high_below
high-so-far high_so_far
highs-before highs_before
highs-later highs_later
highs-steady highs_steady
highs-whole highs_whole
hit-bit hit_bit
hits-still hits_still
idle-at idle_at
idle-of idle_of
ifChanged if_changed
ifRoom if_room
in-memory in_memory_lem
invert-bit invert_bit
isStill is_still
isStopped is_stopped
isWrite is_write
joined-sized joined_sized
keep-bit keep_bit
keepsOf keeps_of
keepsOver keeps_over
kept-first kept_first
kept-mapped kept_mapped
keptBoard kept_board
lane-bit lane_bit
laneBits lane_bits
last-two last_two
lastCycle last_cycle
layerNumber layer_number
least-all least_all
least-end least_end
least-from least_from
least-turn least_turn
length-pwmCells length-pwm_cells
length-pwmsIn length-pwms_in
length-timerCells length-timer_cells
length-timersIn length-timers_in
less-more less_more
letterOf letter_of
limit-pos limit_pos
loaded-false loaded_false
loaded-true loaded_true
main-bit main_bit
map-end map_end
map-turn map_turn
mapped-sized mapped_sized
mapped-twice mapped_twice
mask-of mask_of
min-more min_more
missed-free missed_free
missing-done missing_done
missing-kept missing_kept
modelIn model_in
modelOf model_of
modelOver model_over
next-count next_count
next-tick next_tick
no-tick no_tick
noBytes no_bytes
noRegister no_register
number-eqb number_eqb
number-le number_le
number-one number_one
number-or number_or
number-zero number_zero
odd-or-half odd_or_half
ofPort of_port
ofPwm of_pwm
ofTimer of_timer
opened-answers opened_answers
or-cross or_cross
or-pos or_pos
outputEvents output_events
outputs-length outputs_length
outputs-pair outputs_pair
pairKeeps pair_keeps
pairSized pair_sized
panelKeeps panel_keeps
panelModel panel_model
port-records port_records
port-still port_still
portOf port_of
pwmAt pwm_at
pwmCells pwm_cells
pwmsIn pwms_in
pwmsIn-cells pwms_in_cells
quiet-most quiet_most
raise-none raise_none
raise-tells raise_tells
raised-still raised_still
raised-three raised_three
raises-by raises_by
raises-of raises_of
ranCode ran_code
ranStep ran_step
read-second read_second
read-three read_three
readAt read_at
readControl read_control
refusalNumber refusal_number
refused-back refused_back
registerAt register_at
replyCode reply_code
replyNumber reply_number
reset-pair reset_pair
resetBoard reset_board
second-flag second_flag
second-part second_part_lem
second-sized second_sized
secondPart second_part
set-bit set_bit
settled-idle settled_idle
settled-steps settled_steps
settled-union settled_union
shaped-bank shaped_bank
shaped-clocked shaped_clocked
shaped-decode shaped_decode
shaped-written shaped_written
shaped-zeroed shaped_zeroed
sizedOver sized_over
sizedState sized_state
some-bit some_bit
some-flag some_flag
some-tick some_tick
spareIn spare_in
spareOver spare_over
stateAfter state_after
stateOver state_over
stateWritten state_written
status-after status_after
steps-bank steps_bank
steps-end steps_end
steps-keep steps_keep
steps-one steps_one
steps-some steps_some
steps-stopped steps_stopped
still-steps still_steps
still-union still_union
stopNumber stop_number
stopped-after stopped_after
stopped-answers stopped_answers
stops-at-end stops_at_end
stores-none stores_none
takes-frames takes_frames
then-take then_take
tick-some tick_some
tick-stopped tick_stopped
tickBoard tick_board
tickEvents tick_events
tickState tick_state
ticks-end ticks_end
ticks-stopped ticks_stopped
ticksIn ticks_in
ticksOf ticks_of
ticksOf-timer ticks_of_timer
ticksWithin ticks_within
timer-after timer_after
timer-clocked timer_clocked
timerAt timer_at
timerBy timer_by
timerCells timer_cells
timerOf timer_of
timerOf-map timer_of-map
timersIn timers_in
timersIn-cells timers_in_cells
timersKeeps timers_keeps
timersModel timers_model
told-exit told_exit
union-bank union_bank
union-one union_one
updatedBy updated_by
uploadBoard upload_board
uploadReply upload_reply
withPort with_port
without-masked without_masked
wordAddress word_address
wordCode word_code
words-after words_after
words-answers words_answers
write-first write_first
write-of write_of
write-parts write_parts
write-second write_second
write-shaped write_shaped
write-sized write_sized
write-three write_three
writeAt write_at
writeControl write_control
writtenBit written_bit
"""
NAMES = dict(line.split() for line in TABLE.split("\n") if line)
NAME = re.compile(r"(?<![\w'-])[A-Za-z][\w'-]*")
QUOTED = re.compile(r'"(?:[^"\\]|\\.)*"')


def spelled(text, dashed):
    return NAME.sub(lambda m: NAMES.get(m.group(), m.group()) if dashed or "-" not in m.group() else m.group(), text)


def respell(line, comment):
    code, mark, said = line.partition(comment)
    out, at = "", 0
    for quote in QUOTED.finditer(code):
        out += spelled(code[at : quote.start()], True) + quote.group()
        at = quote.end()
    return out + spelled(code[at:], True) + mark + spelled(said, False)


def texts():
    for folder, _, files in os.walk("crates"):
        for name in files:
            comment = {".rt": "//", ".antt": "-- "}.get(os.path.splitext(name)[1])
            if comment is not None:
                path = os.path.join(folder, name)
                with open(path, encoding="utf-8") as f:
                    yield path, comment, f.read()


def main():
    found = list(texts())
    if not any("wordAddress" in NAME.findall(old) for _, _, old in found):
        raise SystemExit("the older spelling is gone: nothing to do")
    for path, comment, old in found:
        new = "\n".join(respell(line, comment) for line in old.split("\n"))
        if new != old:
            with open(path, "w", encoding="utf-8") as f:
                f.write(new)


main()
