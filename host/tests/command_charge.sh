#!/usr/bin/env bash
# command_charge.sh ROUTINE SCRATCH: `routine charge`: words and exit status.
set -u
script="command_charge"
. host/tests/expect.sh
largest=4294967295

# Cents ----------------------------------------------------------------------------------

# charges NAME CENTS FILE RATES
charges() {
    expect "charge: $1" 0 "$2" "" "$routine" charge "$3" --rates "$4"
}

# odd-flags.vtil has one instruction, a nop; blocks.vtil has nine in three blocks, four of them in the fifth group.
cents() {
    local sum
    charges "every operation once, 28 + 121 + 143 + 187 + 76 + 184 hundredths" 8 samples/all-operations.vtil 7,11,13,17,19,23
    charges "no instructions, the largest rates" 0 samples/minimal.vtil \
        $largest,$largest,$largest,$largest,$largest,$largest
    charges "49 instructions at the largest rates" 2104533975 samples/all-operations.vtil \
        $largest,$largest,$largest,$largest,$largest,$largest
    charges "rates of 0" 0 samples/all-operations.vtil 0,0,0,0,0,0
    for sum in "0 0" "1 1" "99 1" "100 1" "101 2"; do
        charges "a sum of ${sum% *} hundredths" "${sum#* }" samples/odd-flags.vtil "0,0,0,0,0,${sum% *}"
    done
    charges "three blocks of 40, 30 and 20 hundredths" 1 samples/blocks.vtil 10,10,10,10,10,10
    charges "leading zeros" 1 samples/odd-flags.vtil 0,00,000,0000,00000,00000000000000000000000000000000000100
    charges "bytes after the routine" 0 samples/trailing.vtil 1,1,1,1,1,1
}

# All of the sums by the rates of one group alone: its number of instructions.
counts() {
    local file group rates due
    while read -r file due; do
        for group in 0 1 2 3 4 5; do
            rates=$(awk -v g="$group" 'BEGIN { for (i = 0; i < 6; i++) printf "%s%d", i ? "," : "", i == g ? 100 : 0 }')
            charges "$file, the instructions of group $group" "$(cut -d ' ' -f $((group + 1)) <<<"$due")" "samples/$file.vtil" "$rates"
        done
    done <<'END'
all-operations 4 11 11 11 4 8
blocks 2 1 0 1 4 1
END
}

# A routine that was edited: two blocks of one nop each.
edited() {
    local nop="03000000 6e6f70 00000000 0000000000000000 0000000000000000 00000000 00"
    printf 'create 1\nappend 1 %s\ncreate 2\nappend 2 %s\n' "$nop" "$nop" >"$scratch/script"
    "$routine" edit samples/minimal.vtil -s "$scratch/script" -o "$scratch/two.vtil" >/dev/null
    charges "two blocks of 50 hundredths" 1 "$scratch/two.vtil" 0,0,0,0,0,50
    charges "two blocks of 51 hundredths" 2 "$scratch/two.vtil" 0,0,0,0,0,51
}

names_of_files() {
    expect "charge: standard input" 0 8 "" "$routine" charge - --rates 7,11,13,17,19,23 <samples/all-operations.vtil
    expect "charge: standard input from a pipe" 0 8 "" \
        "$routine" charge --rates 7,11,13,17,19,23 - < <(cat samples/all-operations.vtil)
    cp samples/odd-flags.vtil "$scratch/-x"
    cd "$scratch" || exit 2
    expect "charge: a name like an option, after --" 0 3 "" "$routine" charge --rates 1,1,1,1,1,300 -- -x
    cd - >/dev/null || exit 2
}

# By group -----------------------------------------------------------------------------------

by_group() {
    expect "charge --verbose" 0 "group 0: operations 0 to 3 (mov to ldd), 2 instructions, rate 1, 2 hundredths
group 1: operations 4 to 14 (neg to irem), 1 instruction, rate 20, 20 hundredths
group 2: operations 15 to 25 (popcnt to rol), 0 instructions, rate 300, 0 hundredths
group 3: operations 26 to 36 (tg to ifs), 1 instruction, rate 1, 1 hundredth
group 4: operations 37 to 40 (js to vxcall), 4 instructions, rate $largest, 17179869180 hundredths
group 5: operations 41 to 48 (nop to vpinwm), 1 instruction, rate 0, 0 hundredths
sum: 17179869203 hundredths of a cent
charge: 171798693 cents" "" "$routine" charge samples/blocks.vtil --rates 1,20,300,1,$largest,0 --verbose
    expect "charge --json" 0 "{\"cents\": 171798693, \"hundredths\": 17179869203,
\"groups\": [
{\"operations\": [0, 3], \"instructions\": 2, \"rate\": 1, \"hundredths\": 2},
{\"operations\": [4, 14], \"instructions\": 1, \"rate\": 20, \"hundredths\": 20},
{\"operations\": [15, 25], \"instructions\": 0, \"rate\": 300, \"hundredths\": 0},
{\"operations\": [26, 36], \"instructions\": 1, \"rate\": 1, \"hundredths\": 1},
{\"operations\": [37, 40], \"instructions\": 4, \"rate\": $largest, \"hundredths\": 17179869180},
{\"operations\": [41, 48], \"instructions\": 1, \"rate\": 0, \"hundredths\": 0}]}" "" \
        "$routine" charge --json samples/blocks.vtil --rates 1,20,300,1,$largest,0
    passes "one hundredth, one cent" [ "$("$routine" charge --verbose --rates 0,0,0,0,0,1 samples/odd-flags.vtil | tail -n 2)" = \
        "sum: 1 hundredth of a cent
charge: 1 cent" ]
    passes "an option that is given twice and has no value" [ "$("$routine" charge --verbose --verbose --rates 0,0,0,0,0,1 samples/odd-flags.vtil | wc -l)" = 8 ]
}

# one_charge FILE RATES: the three forms say the same, and what they say adds up.
one_charge() {
    python3 -B - "$2" "$("$routine" charge "$1" --rates "$2")" "$("$routine" charge "$1" --rates "$2" --verbose)" \
        "$("$routine" charge "$1" --rates "$2" --json)" <<'END'
import json, re, sys
rates, cents, text, whole = [int(r) for r in sys.argv[1].split(",")], int(sys.argv[2]), sys.argv[3], json.loads(sys.argv[4])
groups = whole["groups"]
rows = [[group["operations"][0], group["operations"][1], group["instructions"], group["rate"], group["hundredths"]] for group in groups]
lines = re.findall(r"^group \d: operations (\d+) to (\d+) \(\w+ to \w+\), (\d+) instructions?, rate (\d+), (\d+) hundredths?$", text, re.M)
assert [[int(n) for n in line] for line in lines] == rows
assert [row[:2] for row in rows] == [[0, 3], [4, 14], [15, 25], [26, 36], [37, 40], [41, 48]]
assert [row[3] for row in rows] == rates
assert all(row[4] == row[2] * row[3] for row in rows)
assert whole["hundredths"] == sum(row[4] for row in rows) == int(re.search(r"^sum: (\d+) hundredths? of a cent$", text, re.M)[1])
assert whole["cents"] == cents == -(-whole["hundredths"] // 100) == int(re.search(r"\ncharge: (\d+) cents?$", text)[1])
END
}
# fullest: as many nops as a routine can have.
fullest() {
    python3 -B -c 'import sys; sys.path.insert(0, "samples"); import make
sys.stdout.buffer.write(make.routine(blocks=[make.block(1, [make.instruction("nop")] * 524283)]))'
}
three_forms() {
    local file
    if ! command -v python3 >/dev/null; then
        skip "the three forms say the same" "there is no python3"
        return
    fi
    fullest >"$scratch/fullest.vtil"
    for file in samples/{all-operations,blocks,minimal,odd-flags,trailing}.vtil "$scratch/fullest.vtil"; do
        passes "the three forms say the same of $file" one_charge "$file" 7,11,13,17,19,23
        passes "so they do at the largest rates" one_charge "$file" $largest,$largest,$largest,$largest,$largest,$largest
    done
    charges "the fullest routine" 22517783383245 "$scratch/fullest.vtil" 0,0,0,0,0,$largest
    rm "$scratch/fullest.vtil"
}

# What is wrong ------------------------------------------------------------------------------------

# bad_rates RATES WORDS: nothing is read: there is no such file.
bad_rates() {
    expect "charge: --rates '$1'" 2 "" "routine: --rates $1: $2" "$routine" charge missing --rates "$1"
}
wrong_rates() {
    local six="six rates are due, R0 to R5" no_number="is not a decimal number"
    bad_rates "" "R0 is empty"
    bad_rates "," "R0 is empty"
    bad_rates ",2,3,4,5,6" "R0 is empty"
    bad_rates "1,,3,4,5,6" "R1 is empty"
    bad_rates "1,2,3,4,5," "R5 is empty"
    bad_rates "1" "R1 is missing: $six"
    bad_rates "1,2,3,4,5" "R5 is missing: $six"
    bad_rates "1,2,3,4,5,6,7" "R6 is one too many: $six"
    bad_rates "1,2,3,4,5,6," "R6 is one too many: $six"
    bad_rates "1,2,3,4,5,6,x,8" "R6 is one too many: $six"
    bad_rates "+1,2,3,4,5,6" "R0 $no_number"
    bad_rates "1,-2,3,4,5,6" "R1 $no_number"
    bad_rates "-0,2,3,4,5,6" "R0 $no_number"
    bad_rates "1, 2,3,4,5,6" "R1 $no_number"
    bad_rates "1,2 ,3,4,5,6" "R1 $no_number"
    bad_rates " 1,2,3,4,5,6" "R0 $no_number"
    bad_rates "1,2,3,4,5,6 " "R5 $no_number"
    bad_rates "1,2, ,4,5,6" "R2 $no_number"
    bad_rates "1 2 3 4 5 6" "R0 $no_number"
    bad_rates "1;2;3;4;5;6" "R0 $no_number"
    bad_rates "1,2,a,4,5,6" "R2 $no_number"
    bad_rates "1,2,3a,4,5,6" "R2 $no_number"
    bad_rates "1,2,3,0x4,5,6" "R3 $no_number"
    bad_rates "1,2,3,4,1e3,6" "R4 $no_number"
    bad_rates "1,2,3,4,5,0.5" "R5 $no_number"
    bad_rates "4294967296,2,3,4,5,6" "R0 is over $largest"
    bad_rates "1,2,3,4,5,0004294967296" "R5 is over $largest"
    bad_rates "1,2,18446744073709551616,4,5,6" "R2 is over $largest"
    bad_rates "1,2,18446744073709551617,4,5,6" "R2 is over $largest"
    bad_rates "1,2,99999999999999999999999999999999999999999,4,5,6" "R2 is over $largest"
    bad_rates "1,2,99999999999999999999999999999999999999999x,4,5,6" "R2 $no_number"
    bad_rates "1,x,y" "R1 $no_number"
    expect "charge: rates of two lines" 2 "" "routine: --rates 1\\x0a2,3: R0 $no_number" "$routine" charge missing --rates $'1\n2,3'
    rest() { "$routine" charge - --rates 1 2>/dev/null; cat; }
    passes "wrong rates leave standard input as it is" cmp samples/blocks.vtil <(rest <samples/blocks.vtil)
}

usage() {
    local missing="routine: --rates R0,R1,R2,R3,R4,R5 is missing for charge
$try charge --help"
    expect "charge without --rates" 2 "" "$missing" "$routine" charge samples/minimal.vtil
    expect "charge --json without --rates" 2 "" "$missing" "$routine" charge samples/minimal.vtil --json
    expect "charge: --rates without rates" 2 "" "routine: no rates given after --rates
$try charge --help" "$routine" charge samples/minimal.vtil --rates
    expect "charge: --rates twice" 2 "" "routine: given twice: --rates
$try charge --help" "$routine" charge --rates 1,1,1,1,1,1 samples/minimal.vtil --rates 1,1,1,1,1,1
    expect "charge: --json and --verbose" 2 "" "routine: --json and --verbose can't both be given to charge
$try charge --help" "$routine" charge --json --verbose --rates 1,1,1,1,1,1 samples/minimal.vtil
    expect "charge: no file" 2 "" "routine: no file given to charge
$try charge --help" "$routine" charge --rates 1,1,1,1,1,1
    expect "charge: two files" 2 "" "routine: too many files given to charge
$try charge --help" "$routine" charge --rates 1,1,1,1,1,1 samples/minimal.vtil samples/minimal.vtil
    expect "charge: an option of another command" 2 "" "routine: unknown option (for a file of that name write ./ before it): -o
$try charge --help" "$routine" charge --rates 1,1,1,1,1,1 samples/minimal.vtil -o out
    expect "show: an option of charge" 2 "" "routine: unknown option (for a file of that name write ./ before it): --verbose
$try show --help" "$routine" show --verbose samples/minimal.vtil
}

refused_files() {
    local form
    for form in "" --verbose --json; do
        # shellcheck disable=SC2086 # no word where it is empty
        expect "charge $form: a damaged file" 1 "" "routine: samples/wrong-mark.vtil: $refused_3" \
            "$routine" charge samples/wrong-mark.vtil --rates 1,1,1,1,1,1 $form
    done
    expect "charge: an empty file" 1 "" "routine: /dev/null: $refused_1" "$routine" charge /dev/null --rates 1,1,1,1,1,1
    expect "charge: a repeated block" 1 "" "routine: samples/repeated-block.vtil: refused 9: repeated block: two blocks share a vip" \
        "$routine" charge samples/repeated-block.vtil --rates 1,1,1,1,1,1
    expect "charge: a missing file" 2 "" "routine: missing: not read: No such file or directory" \
        "$routine" charge missing --rates 1,1,1,1,1,1
    expect "charge: a folder" 2 "" "routine: samples: not read: is a directory" "$routine" charge samples --rates 1,1,1,1,1,1
    expect "charge: a closed standard input" 2 "" "routine: -: not read: Bad file descriptor" \
        "$routine" charge - --rates 1,1,1,1,1,1 <&-
    expect "charge: a device without end" 1 "" "routine: /dev/zero: $refused_3" \
        little_memory charge /dev/zero --rates 1,1,1,1,1,1
}

failing_output() {
    local form
    for form in "" --verbose --json; do
        # shellcheck disable=SC2086 # no word where it is empty
        closed_pipe "charge $form, the pipe closed" "$routine" charge samples/blocks.vtil --rates 1,1,1,1,1,1 $form
        status=0
        # shellcheck disable=SC2086
        "$routine" charge samples/blocks.vtil --rates 1,1,1,1,1,1 $form >&- 2>"$scratch/err" || status=$?
        output_fails "charge $form, standard output closed" "Bad file descriptor"
        status=0
        # shellcheck disable=SC2086
        "$routine" charge samples/blocks.vtil --rates 1,1,1,1,1,1 $form >/dev/full 2>"$scratch/err" || status=$?
        output_fails "charge $form, the disk full" "No space left on device"
    done
}

# Help and manual ------------------------------------------------------------------------------------

# The operations of the groups as --verbose says them, one a line.
said_operations() {
    "$routine" charge samples/minimal.vtil --rates 1,1,1,1,1,1 --verbose | sed -nE 's/^group [0-9]: operations ([^,]*),.*/\1/p'
}
# unsaid TEXT: those of them that the text does not say; or that there are no six.
unsaid() {
    local operations
    [ "$(said_operations | wc -l)" = 6 ] || echo "no six"
    said_operations | while read -r operations; do grep -qF -- "$operations" <<<"$1" || echo "$operations"; done
}
helps() {
    local help
    help=$("$routine" charge --help)
    passes "help for charge" grep -q '^usage: routine charge FILE --rates R0,R1,R2,R3,R4,R5 \[--verbose | --json\]$' <<<"$help"
    passes "the help has the operations of every group" [ -z "$(unsaid "$help")" ]
    passes "docs/routine.1 has the operations of every group" [ -z "$(unsaid "$(cat docs/routine.1)")" ]
    passes "docs/routine.1 names every key of --json" [ -z "$(unnamed_keys charge samples/blocks.vtil --rates 1,1,1,1,1,1)" ]
    passes "the help lists charge" grep -q '^  routine charge FILE --rates' <("$routine" --help)
}

cents
counts
edited
names_of_files
by_group
three_forms
wrong_rates
usage
refused_files
failing_output
helps
finish
