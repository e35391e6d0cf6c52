#!/usr/bin/env bash
# The command line as a depot uses it: what is printed, where, and the exit status. Run after the program was built.
#   tests/cli.sh --list    the names of the tests
#   tests/cli.sh NAME      one of them
set -u
cd "$(dirname "$0")/.." || exit 2
program=$PWD/crates/vestmortar/out/vestmortar
work=$(mktemp -d)
trap 'rm -rf "$work"' EXIT

printf '000102030405060708090A0b0c0d0e0f\n' >"$work/key"
printf '0001020304\n' >"$work/short.key"
printf 'no digits here\n' >"$work/bad.key"
printf 'rack 7' >"$work/plate"
head -c 4096 /dev/zero >"$work/longest"
head -c 4097 /dev/zero >"$work/too-long"

# Runs the program; its exit status, output and errors are then in $status, $out and $err.
run() {
    out=$("$program" "$@" 2>"$work/err")
    status=$?
    err=$(cat "$work/err")
}

# What the last run gave.
gave() {
    [[ $status -eq $1 && $out == "$2" && $err == "$3" ]] && return 0
    printf 'wanted status %s\nout: %s\nerr: %s\ngot status %s\nout: %s\nerr: %s\n' "$1" "$2" "$3" "$status" "$out" "$err"
    return 1
}

# The tag that the second program gives for the key above and a plate file.
second() {
    python3 - "$1" <<'P'
import sys
sys.dont_write_bytecode = True
sys.path.insert(0, 'tests/second')
from minalpher import plate_mac
print(plate_mac(17, bytes(range(16)), open(sys.argv[1], 'rb').read()).hex())
P
}

plate_from_a_file() {
    run plate --key "$work/key" "$work/plate" && gave 0 "$(second "$work/plate")" ""
}

plate_from_standard_input() {
    run plate --key "$work/key" <"$work/plate" && gave 0 "$(second "$work/plate")" ""
}

longest_plate() {
    run plate --key "$work/key" "$work/longest" && gave 0 "$(second "$work/longest")" ""
}

empty_plate() {
    run plate --key "$work/key" </dev/null && gave 0 "$(second /dev/null)" ""
}

check_says_yes() {
    run check --key "$work/key" --tag "$(second "$work/plate")" "$work/plate" && gave 0 "yes: the plate carries this tag" ""
}

check_finds_another_tag() {
    run check --key "$work/key" --tag "$(second "$work/longest")" "$work/plate"
    gave 1 "" "vestmortar: declined: 16 cipher 0: the tag disagrees"
}

check_wants_sixteen_bytes() {
    run check --key "$work/key" --tag 0011 "$work/plate"
    gave 1 "" "vestmortar: declined: 3 cipher 0: the tag is not 16 bytes"
}

too_long_plate() {
    run plate --key "$work/key" "$work/too-long"
    gave 1 "" "vestmortar: declined: 7 cipher 0: the label or plate is over 4096 bytes"
}

short_key() {
    run plate --key "$work/short.key" "$work/too-long"
    gave 1 "" "vestmortar: declined: 1 cipher 0: the key is not 16 bytes"
}

key_that_is_no_hex() {
    run plate --key "$work/bad.key" "$work/plate"
    [[ $status -eq 1 && -z $out && $err == "vestmortar: error: "* && $(wc -l <"$work/err") -eq 1 ]]
}

missing_file() {
    run plate --key "$work/key" "$work/nowhere"
    [[ $status -eq 1 && -z $out && $err == "vestmortar: error: "* && $(wc -l <"$work/err") -eq 1 ]]
}

unknown_command() {
    run plait --key "$work/key"
    [[ $status -eq 1 && -z $out && $err == "vestmortar: error: "* && $(wc -l <"$work/err") -eq 1 ]]
}

missing_key_option() {
    run plate "$work/plate"
    [[ $status -eq 1 && -z $out && $err == "vestmortar: error: "* && $(wc -l <"$work/err") -eq 1 ]]
}

help_is_printed() {
    run --help
    [[ $status -eq 0 && -z $err && $out == *"plate --key FILE"* && $out == *"check --key FILE"* && $out == *"run"* ]]
}

script_from_standard_input() {
    printf 'plate --key %s %s\ncheck --key %s --tag 00 %s\n' "$work/key" "$work/plate" "$work/key" "$work/plate" >"$work/script"
    run run <"$work/script"
    [[ $status -eq 0 && -z $err && $out == *"$(second "$work/plate")"* && $out == *"declined: 3 cipher 0: the tag is not 16 bytes"* ]]
}

kinds_agree() {
    run --kind matrices plate --key "$work/key" "$work/longest" && gave 0 "$(second "$work/longest")" "" || return 1
    run --kind rows plate --key "$work/key" "$work/longest" && gave 0 "$(second "$work/longest")" ""
}

kinds_agree_in_a_script() {
    local rows
    rows=$(cd crates/vestmortar/data && "$program" run depot.script)
    [[ $rows == "$(cd crates/vestmortar/data && "$program" --kind matrices run depot.script)" && $rows == "$(cat crates/vestmortar/stdout)" ]]
}

unknown_kind() {
    run --kind fast plate --key "$work/key" "$work/plate"
    gave 1 "" "vestmortar: error: there is no kind fast; there are rows and matrices"
}

sheet_outside_a_script() {
    run sheet show
    [[ $status -eq 1 && -z $out && $err == "vestmortar: error: "* && $(wc -l <"$work/err") -eq 1 ]]
}

sheet_in_a_script() {
    printf 'sheet seal --key %s --nonce 000102030405060708090a0b0c --label day %s\nsheet open --key %s --label night\nsheet read --key %s --label day --at 0 --bytes 6\n' \
        "$work/key" "$work/plate" "$work/key" "$work/key" >"$work/script"
    run run <"$work/script"
    [[ $status -eq 0 && -z $err && $out == *"sealed: 6 bytes in 1 blocks, tag "* && $out == *"declined: 16 sheet 0: the tag disagrees"*
        && $out == *"read: rack 7"* && $out == *"3 commands: 2 taken, 1 declined, 0 wrong" ]]
}

tests=(plate_from_a_file plate_from_standard_input longest_plate empty_plate check_says_yes check_finds_another_tag
    check_wants_sixteen_bytes too_long_plate short_key key_that_is_no_hex missing_file unknown_command missing_key_option
    help_is_printed script_from_standard_input kinds_agree kinds_agree_in_a_script
    unknown_kind sheet_outside_a_script sheet_in_a_script)

case ${1:-} in
--list) printf '%s\n' "${tests[@]}" ;;
*) "$1" ;;
esac
