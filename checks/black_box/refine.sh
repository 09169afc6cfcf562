# Rounds over a capture. The numbers and digests are those of programs that share nothing with dtx.

python3 -c 'import sys; sys.stdout.buffer.write(sys.stdin.buffer.read().translate(bytes(18 * each & 255 for each in range(256))))' \
    <"$room/feed.sym" >"$room/eighteen.sym"

# sent FROM END: those bytes of the symbols of the feed, up to their end where END is left out.
sent() {
    tail -c +$(($1 + 1)) "$room/feed.sym" | head -c $((${2:-1085760} - $1))
}

# segments FROM END: those segments of the symbols of the feed.
segments() {
    sent $((832 * $1)) $((832 * $2))
}

# differs_in COUNT FIRST LAST: out.sym has the length of wanted.sym, and that many other bytes, of which the first and the last stand there.
differs_in() {
    local found
    found=$(cmp -l wanted.sym out.sym 2>/dev/null | awk 'NR == 1 { first = $1 - 1 } { last = $1 - 1 } END { print NR, first, last }')
    [[ $(stat -c %s out.sym) == "$(stat -c %s wanted.sym)" ]] || wrong "out.sym has $(stat -c %s out.sym) bytes"
    [[ $found == "$*" ]] || wrong "other bytes of out.sym, with the first and the last: $found, not $*"
}

# ---- Without noise ----

# in_rounds TITLE SCALE ROUNDS LINE: what is made of the capture on the standard input, at so many steps a unit, after each number of rounds,
# is what stands on descriptor 9.
in_rounds() {
    local rounds
    start "rounds over a capture: $1"
    cat >in.sym
    cat <&9 >wanted.sym
    for rounds in $3; do
        run 0 "$4" refine "$2" "$rounds" in.sym out.sym
        cmp -s wanted.sym out.sym || wrong "out.sym has other segments after $rounds rounds"
    done
    leaves in.sym wanted.sym out.sym
}

all='symbols 1085760 runs 1 segments 1305 cost 0 known 1249 moved 0 loose 0'
in_rounds 'as it was sent' 1 '1 3 32' "$all" <"$room/feed.sym" 9<"$room/feed.sym"
in_rounds 'at eighteen steps a unit' 18 '1 2' "$all" <"$room/eighteen.sym" 9<"$room/feed.sym"
rm "$room/eighteen.sym"
in_rounds 'behind 100 of nothing' 1 2 'symbols 1085860 runs 1 segments 1305 cost 0 known 1249 moved 0 loose 100' \
    < <(zeros 100 && sent 0) 9<"$room/feed.sym"
in_rounds 'without the first 1000' 1 '1 2' 'symbols 1084760 runs 1 segments 992 cost 0 known 937 moved 0 loose 259416' \
    < <(sent 1000) 9< <(segments 313 1305)
in_rounds 'some of the first sync are lost' 1 '1 2' 'symbols 1085753 runs 1 segments 992 cost 0 known 937 moved 0 loose 260409' \
    < <(sent 0 600 && sent 607) 9< <(segments 313 1305)
in_rounds 'the segments that one word needs' 1 1 'symbols 44096 runs 1 segments 53 cost 0 known 1 moved 0 loose 0' \
    < <(segments 0 53) 9< <(segments 0 53)
in_rounds 'a segment too few for a word' 1 1 'symbols 44064 runs 1 segments 52 cost 0 known 0 moved 0 loose 800' \
    < <(segments 0 52 && sent $((52 * 832)) $((52 * 832 + 800))) 9< <(segments 0 52)

# Words over the splice that are known have bytes where others were sent. What they move, they move once.
start 'rounds over a capture: some of a field are lost'
{ sent 0 300000 && sent 300100; } >in.sym
{ segments 0 313 && segments 626 1305; } >wanted.sym
lost='symbols 1085660 runs 2 segments 992 cost 3168 known 891'
run 0 "$lost moved 136 loose 260316" refine 1 1 in.sym out.sym
differs_in 136 258920 263743
mv out.sym first.sym
for rounds in 2 3; do
    run 0 "$lost moved 0 loose 260316" refine 1 $rounds in.sym out.sym
    cmp -s first.sym out.sym || wrong "out.sym has other segments after $rounds rounds"
done

start 'rounds over a capture: some of two fields are lost, and the run between them is none'
{ sent 0 300000 && sent 300100 600000 && sent 600007; } >in.sym
{ segments 0 313 && segments 939 1305; } >wanted.sym
run 0 'symbols 1085653 runs 2 segments 679 cost 3368 known 579 moved 152 loose 520725' refine 1 1 in.sym out.sym
differs_in 152 258920 263779

start 'rounds over a capture: more symbols than were sent'
{ sent 0 300000 && zeros 300 && sent 300000; } >in.sym
run 0 'symbols 1086060 runs 2 segments 1305 cost 28600 known 936 moved 132 loose 300' refine 1 1 in.sym out.sym
head -c $((360 * 832)) out.sym | cmp -s - <(segments 0 360) || wrong 'the segments before them are other ones'
tail -c $((679 * 832)) out.sym | cmp -s - <(segments 626 1305) || wrong 'the segments behind them are other ones'

start 'rounds over a capture: none in which a field begins'
zeros 2000 >in.sym
run 10 'no sync' refine 1 1 in.sym out.sym
are_empty out.sym
sent 832 1664 >in.sym
cp ../inputs/long.ts out.sym
run 10 'no sync' refine 1 2 in.sym out.sym
are_empty out.sym
: >in.sym
run 10 'no sync' refine 18 32 in.sym out.sym
are_empty out.sym

# ---- With noise ----

# noisy WORDS CAPTURE: begins a case of the capture in.sym with noise, which `capture.py` makes of the symbols of the feed by those words.
# CAPTURE is its digest.
noisy() {
    local decibels seed changes
    start "rounds over a capture with noise: $1"
    read -r scale decibels seed changes <<<"$1"
    # shellcheck disable=SC2086
    "$top/examples/capture.py" "$scale" "$decibels" "$seed" "$room/feed.sym" in.sym $changes
    has_digest in.sym "$2"
}

# refined ROUNDS LINE MADE RECEIVED PACKETS: what is made of that capture in so many rounds, or by `acquire` where they are 0, and what is
# received of that. LINE and RECEIVED are lines, MADE and PACKETS digests.
refined() {
    local words=(refine "$scale" "$1")
    (($1 > 0)) || words=(acquire "$scale")
    run 0 "$2" "${words[@]}" in.sym out.sym
    has_digest out.sym "$3"
    run 0 "$4" receive out.sym out.ts
    has_digest out.ts "$5"
}

whole='symbols 1085760 runs 1 segments 1305'
noisy '8 13.5 19' b8e28991f93193335dd6985741a45ef6d8b8f18b3df638779b5d3d9f5feb5198
refined 0 "$whole cost 63044861 loose 0" 7822f197000f6b41f13389b6fcb1c83264ddbad0d07239738e1bc64c47e9d4e7 \
    'segments 1305 runs 1 packets 1249 fixed 2408 flagged 969 loose 0' faf61aea1a304f4f4aceb10548460f0ce0382bb4d6a39255893b5571022875c2
refined 1 "$whole cost 63483965 known 280 moved 15317 loose 0" 3442f738249ecf2089f8dd74799f33ec612ec5f279b50f4268553ad0d2376eb7 \
    'segments 1305 runs 1 packets 1249 fixed 2755 flagged 620 loose 0' c24797aa40ed2c86ce0575a18e016433bba131807855e843c08cd1afef363e04
refined 4 "$whole cost 64527869 known 1162 moved 5297 loose 0" 03be907946b4c143b509e67c2c45be89cc496d61c11087bb665c392c72711319 \
    'segments 1305 runs 1 packets 1249 fixed 320 flagged 28 loose 0' 8087a513274c47105a119b26ea17b78227bb6ef3f3806d5e847ae9f63221fbd6
refined 8 "$whole cost 64606333 known 1243 moved 64 loose 0" 763c34083edf00fad85cff54d4298fa73bb851f07374b0f559f2c3ee07326092 \
    'segments 1305 runs 1 packets 1249 fixed 0 flagged 6 loose 0' 228cfd0a5a7c0d136086c7f56e6065ae3ee58706ee709a74f2e2060b5e6c63f2
refined 16 "$whole cost 64606333 known 1243 moved 0 loose 0" 763c34083edf00fad85cff54d4298fa73bb851f07374b0f559f2c3ee07326092 \
    'segments 1305 runs 1 packets 1249 fixed 0 flagged 6 loose 0' 228cfd0a5a7c0d136086c7f56e6065ae3ee58706ee709a74f2e2060b5e6c63f2

noisy '4 14 20' 12f26d305e3e518b14eac61568895ca40c0cb1f687faf2bfcebdd3561423f754
refined 3 "$whole cost 14479325 known 1249 moved 0 loose 0" 10cf11c1a4b1d63d5e59f6ace41107064255abe706f999d4052e71dd74e0ac4f \
    'segments 1305 runs 1 packets 1249 fixed 0 flagged 0 loose 0' c2621661d1fdb70783b472c351877cd188c28b896a075193a0b2c6f8fa310663

noisy '8 13.75 21 --front 5000 --cut 305000 305100' 67f31b2120b0dafad54f8d822bd8f7523c05c0c2acb27b7c62602cb77e9aae0e
refined 0 'symbols 1090660 runs 2 segments 992 cost 45673025 loose 265316' \
    1335364754a79bbc3d0a18c9869027a85e2d8143d31105f09db3ce827788ac51 \
    'segments 992 runs 1 packets 937 fixed 4634 flagged 342 loose 0' e93c36e2356fb3e6b59ef391dd0fdd6e98c2231b35709522328f2b523946bccb
refined 5 'symbols 1090660 runs 2 segments 992 cost 46467073 known 888 moved 0 loose 265316' \
    946348f7d837f7b7029af3aabcbd4466a5f8d45bc7bdacea359cecdd449ea9ca \
    'segments 992 runs 1 packets 937 fixed 2 flagged 49 loose 0' 3e751a12e90823522e4b3b2329d36e9f04cea10d0dc42ffeb3a695323bc38b14

noisy '18 13.38 22' 571a6744d6975eebff8d0ccbbb9c18565a9e9ad676a51bffc474662795ce7fe6
refined 2 "$whole cost 283738690 known 131 moved 4682 loose 0" 6a2006308e22f2eb23349a9d77de72477ee2cd32f4d0b3f120910af16732e621 \
    'segments 1305 runs 1 packets 1249 fixed 657 flagged 1044 loose 0' cf02bc25825c28c3db1f3398c0c96f21731bba335985dd0560e6ca2a73ae911d
refined 32 "$whole cost 292330882 known 1238 moved 0 loose 0" 4c069a28978d92eba5ad74e96d6c3239461775f8e0fa67b58ade16b44dccd387 \
    'segments 1305 runs 1 packets 1249 fixed 0 flagged 11 loose 0' 962f3ba3bc3cfa7059372b0741fe55513249965454a3e8d2fbd078ea8a886846

start 'random captures in rounds'
"$top/checks/independent/refine.py" "$dtx" 16 >"$room/said" || wrong "$(grep FAILED "$room/said" | head -n 3)"

# ---- Refusals ----

refuses_files refine 8 2

start 'refined symbols replace older ones'
segments 0 53 >in.sym
cp ../inputs/long.ts out.sym
run 0 'symbols 44096 runs 1 segments 53 cost 0 known 1 moved 0 loose 0' refine 1 1 in.sym out.sym
cmp -s in.sym out.sym || wrong 'out.sym has other segments'

start 'the disk is full of refined symbols'
fills_up 300 "$room/feed.sym" refine 1 2 "$room/feed.sym" out.sym
