#!/usr/bin/env bash
# command_edits.sh ROUTINE SCRATCH: `routine edit`: words, files and exit status.
set -u
script="command_edits"
. host/tests/expect.sh

# A nop: name size, name, operand count, vip, sp offset, sp index, sp reset.
nop="03000000 6e6f70 00000000 0000000000000000 0000000000000000 00000000 00"

# instruction NAME COUNT: the bytes of one whose operands are so many immediates; all else in it is 0.
instruction() {
    printf '%02x000000 %s %02x000000 %0*d' ${#1} "$(printf %s "$1" | od -An -tx1 | tr -d ' ')" "$2" $((2 * (16 * $2 + 21))) 0
}

write_script() {
    cat >"$scratch/script"
}

accepted_lines() {
    write_script <<END
# Document 01's three blocks.
create 5
  create 0x6
	create 7   # the last

append 5 $nop
remove 5
undo
END
    expect "edit" 0 "line 2: create 0x5: accepted, 150 bytes written, 20 of the journal used
line 3: create 0x6: accepted, 186 bytes written, 40 of the journal used
line 4: create 0x7: accepted, 222 bytes written, 60 of the journal used
line 6: append 0x5, 32 bytes: accepted, 254 bytes written, 80 of the journal used
line 7: remove 0x5: accepted, 186 bytes written, 168 of the journal used
line 8: undo: accepted, 254 bytes written, 80 of the journal used
6 lines, 0 refused" "" "$routine" edit samples/minimal.vtil -s "$scratch/script" -o "$scratch/edited"
    expect "what was written" 0 "$scratch/edited: accepted, 254 bytes consumed" "" "$routine" check "$scratch/edited"
    passes "its blocks are 5, 6, 7" [ "$("$routine" show "$scratch/edited" | sed -n 's/^block [0-9]*: vip \([^,]*\),.*/\1/p' | tr '\n' ' ')" = "0x5 0x6 0x7 " ]
    passes "the nop is in the first" [ "$("$routine" show "$scratch/edited" | grep -c '    0: nop; vip 0x0')" = 1 ]
}

# Taking everything back gives the routine that was there.
taken_back() {
    write_script <<END
remove 0x1000
create 18446744073709551615
append 18446744073709551615 $nop
remove 0x1010
undo
undo
undo
undo
END
    expect "edit and take all back" 0 "line 1: remove 0x1000: accepted, 708 bytes written, 446 of the journal used
line 2: create 0xffffffffffffffff: accepted, 744 bytes written, 466 of the journal used
line 3: append 0xffffffffffffffff, 32 bytes: accepted, 776 bytes written, 486 of the journal used
line 4: remove 0x1010: accepted, 581 bytes written, 701 of the journal used
line 5: undo: accepted, 776 bytes written, 486 of the journal used
line 6: undo: accepted, 744 bytes written, 466 of the journal used
line 7: undo: accepted, 708 bytes written, 446 of the journal used
line 8: undo: accepted, 1134 bytes written, 0 of the journal used
8 lines, 0 refused" "" "$routine" edit samples/blocks.vtil -s "$scratch/script" -o "$scratch/edited"
    passes "the routine is as it was" cmp samples/blocks.vtil "$scratch/edited"
}

refused_lines() {
    write_script <<END
undo
create 5
create 5
remove 6
append 6 $nop
append 5 $nop 00
append 5 ff000000
append 5 03000000 7a7a7a 00000000
append 5 03000000 6e6f70 01000000
append 5 01000000 ff
append 5 $nop
END
    cp samples/blocks.vtil "$scratch/edited"
    expect "edit with refused lines" 1 "line 1: undo: refused 16: nothing to take back
line 2: create 0x5: accepted, 150 bytes written, 20 of the journal used
line 3: create 0x5: refused 14: block present
line 4: remove 0x6: refused 15: no such block, or no such place
line 5: append 0x6, 32 bytes: refused 15: no such block, or no such place
line 6: append 0x5, 33 bytes: refused 17: leftover: bytes after the appended instruction
line 7: append 0x5, 4 bytes: $refused_1
line 8: append 0x5, 11 bytes: refused 7: unknown operation: name not among the 49
line 9: append 0x5, 11 bytes: refused 8: wrong operand count for the name
line 10: append 0x5, 5 bytes: refused 2: name not text: not well-formed UTF-8 (Unicode Standard)
line 11: append 0x5, 32 bytes: accepted, 182 bytes written, 40 of the journal used
11 lines, 9 refused" "" "$routine" edit samples/minimal.vtil -s "$scratch/script" -o "$scratch/edited"
    expect "the accepted lines were done" 0 "$scratch/edited: accepted, 182 bytes consumed" "" "$routine" check "$scratch/edited"
}

# number N: 32 bits, the lowest byte first. register WIDTH OFFSET: an operand, as `immediate` is.
number() {
    printf '%02x%02x%02x%02x' $(($1 & 255)) $(($1 >> 8 & 255)) $(($1 >> 16 & 255)) $(($1 >> 24 & 255))
}
register() {
    printf '01000000 0000000000000000 0000000000000000 %s %s' "$(number "$1")" "$(number "$2")"
}
immediate="00000000 ffffffffffffffff 50000000"
rest="0000000000000000 0000000000000000 00000000 00"

# te takes three operands, add two, neg one.
crooked_lines() {
    local te="02000000 7465 03000000" add="03000000 616464 02000000" neg="03000000 6e6567 01000000" most=2147483647
    write_script <<END
create 5
append 5 $add $(register 80 0) $immediate $rest
append 5 $add $immediate $(register 0 0) $rest
append 5 $te $(register 64 0) $(register 1 63) $(register 1 64) $rest
append 5 $te $(register 64 0) $immediate $(register 33 32) $rest
append 5 $te $(register 64 1) $(register 0 0) $(register 0 0) $rest
append 5 $neg $(register -1 2) $rest
append 5 $neg $(register $((-most - 1)) $((-most - 1)))
append 5 $neg $(register $most $most)
append 5 $neg $(register 1 -1) ff
append 6 $add $(register 65 0) 02000000
append 5 $add 02000000 $(register 65 0)
append 5 $neg $(register 64 0) $rest
END
    expect "edit with crooked registers" 1 "line 1: create 0x5: accepted, 150 bytes written, 20 of the journal used
line 2: append 0x5, 76 bytes: refused 19: crooked register: its first operand has width 80 and offset 0
line 3: append 0x5, 76 bytes: refused 19: crooked register: its second operand has width 0 and offset 0
line 4: append 0x5, 115 bytes: refused 19: crooked register: its third operand has width 1 and offset 64
line 5: append 0x5, 103 bytes: refused 19: crooked register: its third operand has width 33 and offset 32
line 6: append 0x5, 115 bytes: refused 19: crooked register: its first operand has width 64 and offset 1
line 7: append 0x5, 60 bytes: refused 19: crooked register: its first operand has width -1 and offset 2
line 8: append 0x5, 39 bytes: refused 19: crooked register: its first operand has width -2147483648 and offset -2147483648
line 9: append 0x5, 39 bytes: refused 19: crooked register: its first operand has width 2147483647 and offset 2147483647
line 10: append 0x5, 40 bytes: refused 19: crooked register: its first operand has width 1 and offset -1
line 11: append 0x6, 43 bytes: refused 19: crooked register: its first operand has width 65 and offset 0
line 12: append 0x5, 43 bytes: refused 6: unknown operand kind: neither 0 nor 1
line 13: append 0x5, 60 bytes: accepted, 210 bytes written, 40 of the journal used
13 lines, 11 refused" "" "$routine" edit samples/minimal.vtil -s "$scratch/script" -o "$scratch/edited"
    expect "the sound register was appended" 0 "$scratch/edited: accepted, 210 bytes consumed" "" "$routine" check "$scratch/edited"
}

# The register that was appended above is made crooked: its width stands 29 bytes and two numbers before the routine's end.
crooked_in_a_file() {
    local at=$((210 - 8 - 21 - 8))
    { head -c $at "$scratch/edited"; printf '\0\0\0\0'; tail -c +$((at + 5)) "$scratch/edited"; } >"$scratch/crooked"
    expect "check of a crooked register" 0 "$scratch/crooked: accepted, 210 bytes consumed" "" "$routine" check "$scratch/crooked"
    passes "it is shown" [ "$("$routine" show "$scratch/crooked" | grep -c 'neg register 0x0 flags 0x0 bits 0 at 0;')" = 1 ]
    printf 'remove 5\nundo\nappend 5 %s\nundo\n' "$nop" >"$scratch/script"
    expect "edit of a crooked register's block" 0 "line 1: remove 0x5: accepted, 114 bytes written, 116 of the journal used
line 2: undo: accepted, 210 bytes written, 0 of the journal used
line 3: append 0x5, 32 bytes: accepted, 242 bytes written, 20 of the journal used
line 4: undo: accepted, 210 bytes written, 0 of the journal used
4 lines, 0 refused" "" "$routine" edit "$scratch/crooked" -s "$scratch/script" -o "$scratch/edited"
    passes "the file is as it was" cmp "$scratch/crooked" "$scratch/edited"
}

# closed_by NAME COUNT SIZE: after that operation, whose instruction has so many bytes, a block takes no more until it is taken back.
closed_by() {
    write_script <<END
create 5
append 5 $nop
append 5 $(instruction "$1" "$2")
append 5 $nop
append 5 $(instruction "$1" "$2")
append 5 $nop 00
append 6 $nop
undo
append 5 $nop
END
    expect "edit a block that $1 closes" 1 "line 1: create 0x5: accepted, 150 bytes written, 20 of the journal used
line 2: append 0x5, 32 bytes: accepted, 182 bytes written, 40 of the journal used
line 3: append 0x5, $3 bytes: accepted, $((182 + $3)) bytes written, 60 of the journal used
line 4: append 0x5, 32 bytes: refused 18: closed block: its last instruction is $1
line 5: append 0x5, $3 bytes: refused 18: closed block: its last instruction is $1
line 6: append 0x5, 33 bytes: refused 17: leftover: bytes after the appended instruction
line 7: append 0x6, 32 bytes: refused 15: no such block, or no such place
line 8: undo: accepted, 182 bytes written, 40 of the journal used
line 9: append 0x5, 32 bytes: accepted, 214 bytes written, 60 of the journal used
9 lines, 4 refused" "" "$routine" edit samples/minimal.vtil -s "$scratch/script" -o "$scratch/edited"
    expect "the lines after them were done" 0 "$scratch/edited: accepted, 214 bytes consumed" "" "$routine" check "$scratch/edited"
}

# The blocks of the one sample end with js, jmp and vexit. In the other these have instructions after them, as only a file can.
closed_in_a_file() {
    write_script <<END
append 0x1000 $nop
append 0x1010 $nop
append 0x1020 $nop
END
    expect "edit the closed blocks of a file" 1 "line 1: append 0x1000, 32 bytes: refused 18: closed block: its last instruction is js
line 2: append 0x1010, 32 bytes: refused 18: closed block: its last instruction is jmp
line 3: append 0x1020, 32 bytes: refused 18: closed block: its last instruction is vexit
3 lines, 3 refused" "" "$routine" edit samples/blocks.vtil -s "$scratch/script" -o "$scratch/edited"
    passes "the routine is as it was" cmp samples/blocks.vtil "$scratch/edited"
    expect "and is shown as it was" 0 "$(cat host/tests/blocks.shown)" "" "$routine" show "$scratch/edited"
    write_script <<END
remove 0x1000
append 0x1020 $nop
create 0x1000
append 0x1000 $nop
undo
undo
undo
append 0x1000 $nop
END
    expect "edit closed blocks that are moved, removed and restored" 1 "line 1: remove 0x1000: accepted, 708 bytes written, 446 of the journal used
line 2: append 0x1020, 32 bytes: refused 18: closed block: its last instruction is vexit
line 3: create 0x1000: accepted, 744 bytes written, 466 of the journal used
line 4: append 0x1000, 32 bytes: accepted, 776 bytes written, 486 of the journal used
line 5: undo: accepted, 744 bytes written, 466 of the journal used
line 6: undo: accepted, 708 bytes written, 446 of the journal used
line 7: undo: accepted, 1134 bytes written, 0 of the journal used
line 8: append 0x1000, 32 bytes: refused 18: closed block: its last instruction is js
8 lines, 2 refused" "" "$routine" edit samples/blocks.vtil -s "$scratch/script"
    printf 'append 1 %s\n' "$nop" >"$scratch/script"
    expect "edit a block in which none of the four is last" 0 "line 1: append 0x1, 32 bytes: accepted, 4191 bytes written, 20 of the journal used
1 line, 0 refused" "" "$routine" edit samples/all-operations.vtil -s "$scratch/script"
}

# Where it is written.
outputs() {
    printf 'create 1' >"$scratch/script" # without a line feed
    cp samples/minimal.vtil "$scratch/in"
    expect "edit without -o" 0 "line 1: create 0x1: accepted, 150 bytes written, 20 of the journal used
1 line, 0 refused" "" "$routine" edit "$scratch/in" -s "$scratch/script"
    passes "nothing was written" cmp samples/minimal.vtil "$scratch/in"
    "$routine" edit "$scratch/in" -s "$scratch/script" -o "$scratch/in" >/dev/null
    expect "edit a file over itself" 0 "$scratch/in: accepted, 150 bytes consumed" "" "$routine" check "$scratch/in"
    "$routine" edit samples/minimal.vtil -s - -o - <"$scratch/script" 2>"$scratch/lines" | cmp - "$scratch/in"
    passes "edit to standard output, the script from standard input" [ "${PIPESTATUS[1]}" = 0 ]
    passes "its lines are on standard error" [ "$(tail -n 1 "$scratch/lines")" = "1 line, 0 refused" ]
    "$routine" edit - -s "$scratch/script" -o "$scratch/edited" <samples/minimal.vtil >/dev/null
    passes "edit standard input" cmp "$scratch/edited" "$scratch/in"
    printf 'create 1\r\n\r\n# nothing\r\nundo\r\n' >"$scratch/script"
    expect "a script with carriage returns" 0 "line 1: create 0x1: accepted, 150 bytes written, 20 of the journal used
line 4: undo: accepted, 114 bytes written, 0 of the journal used
2 lines, 0 refused" "" "$routine" edit samples/minimal.vtil -s "$scratch/script"
    printf '\xef\xbb\xbfcreate 1\nappend 1 00\n' >"$scratch/script"
    expect "a script with a byte order mark" 1 "line 1: create 0x1: accepted, 150 bytes written, 20 of the journal used
line 2: append 0x1, 1 byte: $refused_1
2 lines, 1 refused" "" "$routine" edit samples/minimal.vtil -s "$scratch/script"
    printf '\xef\xbb\xbf' >"$scratch/script"
    expect "a script of nothing but a byte order mark" 0 "0 lines, 0 refused" "" \
        "$routine" edit samples/minimal.vtil -s "$scratch/script"
    expect "an empty script" 0 "0 lines, 0 refused" "" "$routine" edit samples/odd-flags.vtil -s /dev/null -o "$scratch/edited"
    "$routine" normalize samples/odd-flags.vtil -o "$scratch/written"
    passes "which writes the written form" cmp "$scratch/written" "$scratch/edited"
}

# bad_line NAME PROBLEM LINE: the script is refused as a whole, before its first call.
bad_line() {
    printf 'create 1\n# so far good\n%s\n' "$3" >"$scratch/script"
    expect "a bad line: $1" 2 "" "routine: $scratch/script: line 3: $2" \
        "$routine" edit samples/minimal.vtil -s "$scratch/script" -o "$scratch/in"
}
bad_lines() {
    local vip="a vip is a number of at most 64 bits, decimal, or hexadecimal after 0x"
    local word="a line begins with create, remove, append or undo"
    local pairs="bytes are pairs of hexadecimal digits"
    local before
    before=$(cksum <"$scratch/in")
    bad_line "an unknown word" "$word" "creat 5"
    bad_line "a word in capitals" "$word" "CREATE 5"
    bad_line "no vip" "$vip" "create"
    bad_line "a comment for a vip" "$vip" "remove # 5"
    bad_line "a vip of 65 bits" "$vip" "create 18446744073709551616"
    bad_line "a vip of 17 digits" "$vip" "create 0x10000000000000000"
    bad_line "a vip with a sign" "$vip" "remove -1"
    bad_line "a vip of no digits" "$vip" "remove 0x"
    bad_line "a vip with letters" "$vip" "remove 5f"
    bad_line "no bytes" "append wants the instruction's bytes" "append 5"
    bad_line "half a byte" "$pairs" "append 5 030"
    bad_line "no digits" "$pairs" "append 5 03 0g"
    bad_line "a # within a word" "$vip" "create 5#"
    bad_line "words after create" "there are words after its end" "create 5 6"
    bad_line "words after undo" "there are words after its end" "undo 1"
    printf 'create 1\nun\0do\n' >"$scratch/script"
    expect "a bad line: no text" 2 "" "routine: $scratch/script: line 2: $word" \
        "$routine" edit samples/minimal.vtil -s "$scratch/script" -o "$scratch/in"
    passes "nothing was written by any of them" [ "$(cksum <"$scratch/in")" = "$before" ]
}

edit_fails() {
    local before
    printf 'create 99\n' >"$scratch/script"
    before=$(cksum <"$scratch/in")
    expect "edit a damaged file" 1 "" "routine: samples/wrong-mark.vtil: $refused_3" \
        "$routine" edit samples/wrong-mark.vtil -s "$scratch/script" -o "$scratch/in"
    expect "edit a missing file" 2 "" "routine: missing: not read: No such file or directory" \
        "$routine" edit missing -s "$scratch/script" -o "$scratch/in"
    expect "a missing script" 2 "" "routine: missing: not read: No such file or directory" \
        "$routine" edit samples/minimal.vtil -s missing -o "$scratch/in"
    expect "no script" 2 "" "routine: -s SCRIPT is missing for edit
$try edit --help" "$routine" edit samples/minimal.vtil -o "$scratch/in"
    expect "file and script from standard input" 2 "" "routine: FILE and SCRIPT can't both be standard input (-) for edit
$try edit --help" \
        "$routine" edit - -s - -o "$scratch/in" <"$scratch/script"
    expect "the lines' answers on a full disk" 2 "" "routine: $scratch/in: not written: the lines' answers could not be shown
routine: standard output could not be written: No space left on device" \
        bash -c '"$0" edit samples/minimal.vtil -s "$1/script" -o "$1/in" >/dev/full' "$routine" "$scratch"
    expect "the lines' answers on a closed stream" 2 "" "routine: $scratch/in: not written: the lines' answers could not be shown
routine: standard output could not be written: Bad file descriptor" \
        bash -c '"$0" edit samples/minimal.vtil -s "$1/script" -o "$1/in" >&-' "$routine" "$scratch"
    expect "edit to a full device" 2 "line 1: create 0x63: accepted, 150 bytes written, 20 of the journal used
1 line, 0 refused" "routine: /dev/full: not written: No space left on device" \
        "$routine" edit samples/minimal.vtil -s "$scratch/script" -o /dev/full
    passes "the file there is as it was" [ "$(cksum <"$scratch/in")" = "$before" ]
}

# A routine of 16,777,210 bytes has no room for one more block; its removed block fills the journal but for 136 bytes.
at_the_limit() {
    local name="edit at the library's limit" vip
    if ! command -v python3 >/dev/null; then
        skip "$name" "there is no python3"
        return
    fi
    python3 -B -c 'import sys; sys.path.insert(0, "samples"); import make
sys.stdout.buffer.write(make.routine(blocks=[make.block(1, prev=range(2097128)), make.block(2)]))' >"$scratch/large"
    printf '%s\n' "create 3" "remove 1" "create "{3..9} "undo" "create 9" >"$scratch/script"
    expect "$name" 1 "line 1: create 0x3: refused 11: image full: the new written size passes the image's length
line 2: remove 0x1: accepted, 150 bytes written, 16777080 of the journal used
$(for vip in 3 4 5 6 7 8; do
        echo "line $vip: create 0x$vip: accepted, $((150 + 36 * (vip - 2))) bytes written, $((16777080 + 20 * (vip - 2))) of the journal used"
    done)
line 9: create 0x9: refused 12: journal full: used plus cost passes the journal's length
line 10: undo: accepted, 330 bytes written, 16777180 of the journal used
line 11: create 0x9: accepted, 366 bytes written, 16777200 of the journal used
11 lines, 2 refused" "" "$routine" edit "$scratch/large" -s "$scratch/script"
    rm "$scratch/large"
}

# The charge after each line ---------------------------------------------------------------------

# Half a cent for a nop, one and a half for a jmp. Some refusals have words with a comma, so what follows them is parted by another mark.
charged_lines() {
    write_script <<END
create 5
append 5 $nop
append 5 $(instruction jmp 1)
append 5 $nop
undo
append 5 $nop
append 5 $nop
remove 5
remove 5
create 6
undo
undo
append 5 $nop 00
undo
undo
undo
undo
undo
END
    expect "edit --rates" 1 "opened: 114 bytes written, charge 0 cents
line 1: create 0x5: accepted, 150 bytes written, 20 of the journal used, charge 0 cents
line 2: append 0x5, 32 bytes: accepted, 182 bytes written, 40 of the journal used, charge 1 cent
line 3: append 0x5, 48 bytes: accepted, 230 bytes written, 60 of the journal used, charge 2 cents
line 4: append 0x5, 32 bytes: refused 18: closed block: its last instruction is jmp; charge 2 cents
line 5: undo: accepted, 182 bytes written, 40 of the journal used, charge 1 cent
line 6: append 0x5, 32 bytes: accepted, 214 bytes written, 60 of the journal used, charge 1 cent
line 7: append 0x5, 32 bytes: accepted, 246 bytes written, 80 of the journal used, charge 2 cents
line 8: remove 0x5: accepted, 114 bytes written, 232 of the journal used, charge 0 cents
line 9: remove 0x5: refused 15: no such block, or no such place; charge 0 cents
line 10: create 0x6: accepted, 150 bytes written, 252 of the journal used, charge 0 cents
line 11: undo: accepted, 114 bytes written, 232 of the journal used, charge 0 cents
line 12: undo: accepted, 246 bytes written, 80 of the journal used, charge 2 cents
line 13: append 0x5, 33 bytes: refused 17: leftover: bytes after the appended instruction; charge 2 cents
line 14: undo: accepted, 214 bytes written, 60 of the journal used, charge 1 cent
line 15: undo: accepted, 182 bytes written, 40 of the journal used, charge 1 cent
line 16: undo: accepted, 150 bytes written, 20 of the journal used, charge 0 cents
line 17: undo: accepted, 114 bytes written, 0 of the journal used, charge 0 cents
line 18: undo: refused 16: nothing to take back; charge 0 cents
18 lines, 4 refused" "" "$routine" edit samples/minimal.vtil --rates 0,0,0,0,150,50 -s "$scratch/script"
    # Without rates the same lines, but for the first and for what is said of the charge.
    "$routine" edit samples/minimal.vtil -s "$scratch/script" >"$scratch/plain"
    passes "edit without --rates says nothing of it" cmp "$scratch/plain" \
        <(sed '1d; s/[,;] charge [0-9]* cents\{0,1\}$//' "$scratch/out")
}

# 49 instructions at the largest rate, one more, and a block of them that goes.
charged_at_the_largest() {
    local rates=4294967295,4294967295,4294967295,4294967295,4294967295,4294967295
    printf 'append 1 %s\nremove 1\nundo\n' "$nop" >"$scratch/script"
    expect "edit at the largest rates" 0 "opened: 4159 bytes written, charge 2104533975 cents
line 1: append 0x1, 32 bytes: accepted, 4191 bytes written, 20 of the journal used, charge 2147483648 cents
line 2: remove 0x1: accepted, 114 bytes written, 4117 of the journal used, charge 0 cents
line 3: undo: accepted, 4191 bytes written, 20 of the journal used, charge 2147483648 cents
3 lines, 0 refused" "" "$routine" edit samples/all-operations.vtil -s "$scratch/script" --rates $rates
    expect "edit at rates of 0" 0 "opened: 4159 bytes written, charge 0 cents
0 lines, 0 refused" "" "$routine" edit samples/all-operations.vtil -s /dev/null --rates 0,0,0,0,0,0
}

# What `routine charge` says of the routine that was written, after every beginning of a script.
charged_as_charge_does() {
    local rates=7,11,13,17,19,2300000 lines=0 said charge differ=""
    write_script <<END
create 1
append 1 $(instruction add 2)
append 1 $(instruction mov 2)
remove 0x1000
append 1 $(instruction te 3)
undo
append 1 $nop
undo
undo
remove 0x1020
append 1 $(instruction xor 2)
remove 1
undo
append 1 $(instruction vexit 1)
append 1 $nop
remove 0x1010
undo
END
    while [ "$lines" -le "$(wc -l <"$scratch/script")" ]; do
        head -n "$lines" "$scratch/script" >"$scratch/beginning"
        said=$("$routine" edit samples/blocks.vtil -s "$scratch/beginning" --rates $rates -o "$scratch/edited" |
            sed -nE 's/^(opened|line).* charge ([0-9]+) cents?$/\2/p' | tail -n 1)
        charge=$("$routine" charge "$scratch/edited" --rates $rates)
        [ -n "$said" ] && [ "$said" = "$charge" ] || differ="$differ $lines"
        lines=$((lines + 1))
    done
    passes "the charge is that of the file that is written, after each of $lines beginnings of a script" [ "$lines$differ" = 18 ]
}

charged_outputs() {
    printf 'create 1\nappend 1 %s\n' "$nop" >"$scratch/script"
    "$routine" edit samples/minimal.vtil -s "$scratch/script" -o "$scratch/edited" >/dev/null
    "$routine" edit - -s "$scratch/script" --rates 0,0,0,0,0,250 -o - <samples/minimal.vtil 2>"$scratch/lines" | cmp - "$scratch/edited"
    passes "edit --rates from standard input to standard output" [ "${PIPESTATUS[1]}" = 0 ]
    passes "its charges are on standard error" [ "$(grep -o 'charge.*' "$scratch/lines" | tr '\n' ' ')" = "charge 0 cents charge 0 cents charge 3 cents " ]
    expect "edit --rates of a damaged file" 1 "" "routine: samples/wrong-mark.vtil: $refused_3" \
        "$routine" edit samples/wrong-mark.vtil -s "$scratch/script" --rates 1,1,1,1,1,1 -o "$scratch/edited"
    expect "edit --rates, the charges on a full disk" 2 "" "routine: $scratch/in: not written: the lines' answers could not be shown
routine: standard output could not be written: No space left on device" \
        bash -c '"$0" edit samples/minimal.vtil -s "$1/script" --rates 1,1,1,1,1,1 -o "$1/in" >/dev/full' "$routine" "$scratch"
}

# bad_rates RATES WORDS: neither the script nor the file is read: there are none, and the file there is as it was.
bad_rates() {
    expect "edit: --rates '$1'" 2 "" "routine: --rates $1: $2" "$routine" edit missing -s missing --rates "$1" -o "$scratch/in"
}
wrong_rates() {
    local six="six rates are due, R0 to R5" unknown="routine: unknown option (for a file of that name write ./ before it)"
    local before command
    before=$(cksum <"$scratch/in")
    bad_rates "" "R0 is empty"
    bad_rates "1,,3,4,5,6" "R1 is empty"
    bad_rates "1,2,3,4,5" "R5 is missing: $six"
    bad_rates "1,2,3,4,5,6,7" "R6 is one too many: $six"
    bad_rates "1,-2,3,4,5,6" "R1 is not a decimal number"
    bad_rates "1,2,3,4,5,0.5" "R5 is not a decimal number"
    bad_rates "1,2,4294967296,4,5,6" "R2 is over 4294967295"
    bad_rates "1,2,18446744073709551617,4,5,6" "R2 is over 4294967295"
    passes "nothing was written by any of them" [ "$(cksum <"$scratch/in")" = "$before" ]
    rest() { "$routine" edit samples/minimal.vtil -s - --rates 1 2>/dev/null; cat; }
    passes "wrong rates leave standard input as it is" cmp samples/blocks.vtil <(rest <samples/blocks.vtil)
    expect "edit: --rates without rates" 2 "" "routine: no rates given after --rates
$try edit --help" "$routine" edit samples/minimal.vtil -s "$scratch/script" --rates
    expect "edit: --rates twice" 2 "" "routine: given twice: --rates
$try edit --help" "$routine" edit --rates 1,1,1,1,1,1 samples/minimal.vtil -s "$scratch/script" --rates 1,1,1,1,1,1
    expect "edit: an option of charge" 2 "" "$unknown: --verbose
$try edit --help" "$routine" edit samples/minimal.vtil -s "$scratch/script" --rates 1,1,1,1,1,1 --verbose
    for command in check show normalize same; do
        expect "$command: --rates" 2 "" "$unknown: --rates
$try $command --help" "$routine" "$command" samples/minimal.vtil --rates 1,1,1,1,1,1
    done
}

# The manual's example, whose file is the smallest sample.
page_example() {
    sed -n '/^\$ routine edit tariff.vtil .*rates/,/^\.fi$/p' docs/routine.1 | sed '1d; $d'
}
examples() {
    printf 'create 0x40\nappend 0x40 %s\n' "$nop" >"$scratch/script"
    expect "the manual's example of a charge" 0 "$(page_example)" "" \
        "$routine" edit samples/minimal.vtil -s "$scratch/script" --rates 50,50,50,50,50,50
}

# The page's source without its marks, in one line.
page_words() {
    sed 's/^\.[A-Z]* //' docs/routine.1 | tr '\n' ' '
}
helps() {
    local comment="What follows a # at the beginning of a word is a comment; lines without words are passed over."
    passes "help for edit" grep -qF "usage: routine edit FILE -s SCRIPT [--rates R0,R1,R2,R3,R4,R5] [-o OUT]" <("$routine" edit --help)
    passes "the help says what a comment is" grep -qF "$comment" <("$routine" edit --help | tr '\n' ' ')
    passes "the page says the same" grep -qF "$comment" <(page_words)
}

accepted_lines
taken_back
refused_lines
crooked_lines
crooked_in_a_file
closed_by js 3 79
closed_by jmp 1 48
closed_by vexit 1 50
closed_by vxcall 1 51
closed_in_a_file
outputs
bad_lines
edit_fails
at_the_limit
charged_lines
charged_at_the_largest
charged_as_charge_does
charged_outputs
wrong_rates
examples
helps
finish
