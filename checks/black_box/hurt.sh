# Files that are damaged. What they must be is written here, or by a program that shares nothing with dtx.

# damage_says AT:COUNT:PUT..: makes changes.toml of these entries; an entry has no count where that is left out.
damage_says() {
    local each at count put
    for each in "$@"; do
        IFS=: read -r at count put <<<"$each"
        printf '[[damage]]\nat = %s\n%sput = %s\n' "$at" "${count:+count = $count$'\n'}" "$put"
    done >changes.toml
}

printf '0123456789' >"$inputs/ten"
given 3 0

start 'two segments are lost, and put right'
"$top/checks/independent/reference.py" zeros 624 in.ts
run 0 'packets 624 segments 626 loose 0' code in.ts in.sym
damage_says 167232:1664:127
run 0 'bytes 520832 damaged 1664' hurt in.sym changes.toml out.sym
cp in.sym wanted.sym
head -c 1664 /dev/zero | tr '\0' '\177' | dd of=wanted.sym bs=1 seek=167232 conv=notrunc status=none
cmp -s wanted.sym out.sym || wrong 'out.sym is damaged otherwise'
run 0 'segments 626 runs 1 packets 573 fixed 420 flagged 0 loose 0' receive out.sym out.ts
head -c $((573 * 188)) in.ts | cmp -s - out.ts || wrong 'out.ts is not the first 573 packets'
leaves in.ts in.sym changes.toml out.sym wanted.sym out.ts

start 'twelve symbols are damaged, and put right'
damage_says 300000:12:127
run 0 'bytes 1001728 damaged 12' hurt "$room/from_order.sym" changes.toml out.sym
run 0 'segments 1204 runs 1 packets 937 fixed 9 flagged 0 loose 0' receive out.sym out.ts
has_digest out.ts 25bcdec4408a72dc0fc771a6f9f4864b5bece438a7f254858a62c49148eb8056

start 'a packet that is hurt is refused'
run 0 'packets 9' make 1 9 in.ts
damage_says 940::72
run 0 'bytes 1692 damaged 1' hurt in.ts changes.toml hurt.ts
run 0 'packets 9 filled 0 loose 0' adapt "$plan" in.ts whole.ts
run 6 'packet 5' adapt "$plan" hurt.ts out.ts
head -c 752 whole.ts | cmp -s - out.ts || wrong 'out.ts is not the first four packets'

# What is put where: each entry's bytes, but for those behind the file's end.
while IFS='|' read -r entries status line wanted; do
    start "ten bytes with damage at $entries: $line"
    # shellcheck disable=SC2086
    damage_says $entries
    run "$status" "$line" hurt ../inputs/ten changes.toml out
    printf '%b' "$wanted" | cmp -s - out || wrong "out is $(od -An -c out)"
    leaves changes.toml out
done <<'end'
0::65|0|bytes 10 damaged 1|A123456789
9::-128|0|bytes 10 damaged 1|012345678\x80
0:10:-1|0|bytes 10 damaged 10|\xff\xff\xff\xff\xff\xff\xff\xff\xff\xff
2:3:65 5:1:66 6:2:67|0|bytes 10 damaged 6|01AAABCC89
3:1:51|0|bytes 10 damaged 1|0123456789
9:2:65|9|out of air 0|012345678A
10::65|9|out of air 0|0123456789
0::65 8:2:66 10::67|9|out of air 2|A1234567BB
1::65 4:7:66 11::67 520831999999::68|9|out of air 1|0A23BBBBBB
11::65 12:520832000000:66|9|out of air 0|0123456789
520831999999:520832000000:65|9|out of air 0|0123456789
end

start 'no damage leaves a copy'
: >changes.toml
run 0 'bytes 564000 damaged 0' hurt ../inputs/long.ts changes.toml out
cmp -s ../inputs/long.ts out || wrong 'out is no copy'
echo 'damage = []' >changes.toml
run 0 'bytes 564000 damaged 0' hurt ../inputs/long.ts changes.toml out
cmp -s ../inputs/long.ts out || wrong 'out is no copy'

start 'a file of nothing'
: >in
: >changes.toml
run 0 'bytes 0 damaged 0' hurt in changes.toml out
[[ -f out && ! -s out ]] || wrong 'out is not empty'
damage_says 0::0
run 9 'out of air 0' hurt in changes.toml out
[[ -f out && ! -s out ]] || wrong 'out is not empty'

start 'a damaged file replaces an existing longer output'
cp ../inputs/long.ts out
damage_says 1::65
run 0 'bytes 10 damaged 1' hurt ../inputs/ten changes.toml out
printf '0A23456789' | cmp -s - out || wrong 'out is another file'

start 'damage as one array, and in another folder than the file'
mkdir below
echo 'damage = [{ at = 1, put = 65 }, { put = 66, at = 2, count = 1 }]' >below/changes.toml
cd below || exit 1
run 0 'bytes 10 damaged 2' hurt "$inputs/ten" ../below/changes.toml ../out
cd ..
printf '0AB3456789' | cmp -s - out || wrong 'out is another file'
leaves below below/changes.toml out

# Random files and damage.
start 'random damage'
"$top/checks/independent/hurt.py" "$dtx" 120 >"$room/said" || wrong "$(grep FAILED "$room/said" | head -n 3)"

# ---- Refusals ----

# A blank of a line is written as an underscore here.
while read -r shows input changes output status line; do
    start "\`hurt\` is refused: $shows"
    damage_says 0::0
    mkdir folder
    run "$status" "${line//_/ }" hurt "$input" "$changes" "$output"
    leaves changes.toml folder
done <<'end'
missing_changes ../inputs/ten missing.toml out 4 absent_missing.toml
missing_changes_before_a_missing_input missing missing.toml out 4 absent_missing.toml
a_missing_input missing changes.toml out 4 absent_missing
changes_that_are_a_folder_before_a_missing_input missing folder out 11 read_fault
an_input_that_is_a_folder folder changes.toml out 11 read_fault
an_output_that_is_a_folder ../inputs/ten changes.toml folder 12 write_fault
an_output_in_a_folder_that_is_not_there ../inputs/ten changes.toml nowhere/out 12 write_fault
a_missing_input_before_such_an_output missing changes.toml nowhere/out 4 absent_missing
input_and_changes_are_equal missing missing out 3 same_missing
input_and_output_are_equal ../inputs/ten missing.toml ../inputs/ten 3 same_../inputs/ten
changes_and_output_are_equal missing changes.toml changes.toml 3 same_changes.toml
end

# Changes that are refused come before a missing input, and leave an older output. Of a text with two faults the one is told that the walk
# meets first.
while IFS='|' read -r line text; do
    start "changes that are refused: $line, $text"
    printf '%b' "$text" >changes.toml
    cp ../inputs/ten out
    run 5 "plan $line" hurt missing changes.toml out
    cmp -s ../inputs/ten out || wrong 'out was changed'
    leaves changes.toml out
done <<'end'
whole 0 text|damage = 
whole 0 unknown|start = 0\n
whole 0 unknown|damage = []\nnet = 1\n
damage 0 kind|damage = 1\n
damage 0 kind|damage = [1]\n
damage 1 unknown|[[damage]]\nat = 0\nput = 0\n[[damage]]\nto = 0\n
damage.at 0 missing|[[damage]]\nput = 0\n
damage.at 0 kind|[[damage]]\nat = 0.0\n
damage.at 0 range|[[damage]]\nat = 520832000000\n
damage.at 1 order|[[damage]]\nat = 0\ncount = 2\nput = 0\n[[damage]]\nat = 1\nput = 0\n
damage.at 2 order|[[damage]]\nat = 5\nput = 0\n[[damage]]\nat = 6\nput = 0\n[[damage]]\nat = 6\nput = 0\n
damage.count 0 kind|[[damage]]\nat = 0\ncount = "1"\n
damage.count 0 range|[[damage]]\nat = 0\ncount = 0\n
damage.put 0 missing|[[damage]]\nat = 0\n
damage.put 0 kind|[[damage]]\nat = 0\nput = "A"\n
damage.put 0 range|[[damage]]\nat = 0\nput = 128\n
whole 0 text|damage = 1 1
whole 0 unknown|damage = 1\nstart = 0
damage 0 kind|damage = {}
damage 0 unknown|damage = [{ from = 7 }]
damage.at 0 missing|damage = [{ count = 0 }]
damage.at 0 kind|damage = [{ at = true, count = 0 }]
damage.at 0 range|damage = [{ at = 520832000000, count = 0 }]
damage.count 0 kind|damage = [{ at = 0, count = "1" }]
damage.count 0 range|damage = [{ at = 0, count = 0 }]
damage.count 0 range|damage = [{ at = 0, count = 520832000001, put = 128 }]
damage.put 0 missing|damage = [{ at = 0 }, 1]
damage.put 0 range|damage = [{ at = 0, put = -129 }]
damage.at 1 order|damage = [{ at = 4, count = 3, put = 0 }, { at = 6, count = 0 }]
damage.at 2 order|damage = [{ at = 4, count = 3, put = 0 }, { at = 7, put = 0 }, { at = 7, put = 0 }]
end

start 'changes beyond 16,777,216 bytes'
head -c 16777217 /dev/zero | tr '\0' '\n' >changes.toml
run 5 'plan whole 0 size' hurt ../inputs/ten changes.toml out
leaves changes.toml

start 'a damaged file that fills up its output'
damage_says 0:52:65
mv changes.toml "$inputs/changes.toml"
inputs_before=$(sums)
{ head -c 52 /dev/zero | tr '\0' A && tail -c +53 "$inputs/long.ts"; } >"$room/damaged"
fills_up 300 "$room/damaged" hurt ../inputs/long.ts ../inputs/changes.toml out

if [[ -c /dev/full ]]; then
    start 'a damaged file for a full device'
    : >empty
    : >no_changes.toml
    run 12 'write fault' hurt ../inputs/long.ts ../inputs/changes.toml /dev/full
    run 0 'bytes 0 damaged 0' hurt empty no_changes.toml /dev/full

    start 'a full standard output after a damaged file'
    "$dtx" hurt ../inputs/long.ts ../inputs/changes.toml out >/dev/full 2>"$room/complaint"
    ended 12 $?
    cmp -s "$room/damaged" out || wrong 'out is not whole'
    leaves out

    start 'a full standard output after damage past the end'
    "$dtx" hurt ../inputs/ten ../inputs/changes.toml out >/dev/full 2>"$room/complaint"
    ended 9 $?
    leaves out
fi
rm "$inputs/ten" "$inputs/changes.toml"
inputs_before=$(sums)
