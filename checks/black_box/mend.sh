# Packets of symbols of which some are missing, each -128. What OUT must be is written here, or by a program that shares nothing with dtx.

# missing FROM COUNT FILE: those symbols of the file are missing from there on.
missing() {
    head -c "$2" /dev/zero | tr '\0' '\200' | dd of="$3" bs=65536 oflag=seek_bytes seek="$1" conv=notrunc status=none
}

start 'of symbols of which none is missing the packets are those of `receive`'
run 0 'segments 1305 runs 1 packets 1249 fixed 0 flagged 0 loose 0' mend "$room/feed.sym" out.ts
cmp -s "$room/received.ts" out.ts || wrong 'out.ts has other packets'
leaves out.ts

start 'four segments that are missing come back, which `receive` flags in 51 packets'
cp "$room/feed.sym" in.sym
missing 167232 3328 in.sym
agrees mend in.sym out.ts
[[ $(cat "$room/said") == 'segments 1305 runs 1 packets 1249 fixed '*' flagged 0 loose 0' ]] || wrong "printed $(cat "$room/said")"
cmp -s "$room/received.ts" out.ts || wrong 'out.ts has other packets'
"$dtx" receive in.sym out.ts >"$room/said" 2>"$room/complaint"
[[ $(cat "$room/said") == *' flagged 51 loose 0' ]] || wrong "printed $(cat "$room/said")"
leaves in.sym wanted.ts out.ts

start 'undamaged symbols of a made frame'
run 0 'packets 624' make 1 624 in.ts
run 0 'packets 624 segments 626 loose 0' code in.ts in.sym
run 0 'segments 626 runs 1 packets 573 fixed 0 flagged 0 loose 0' mend in.sym out.ts
head -c $((573 * 188)) in.ts | cmp -s - out.ts || wrong 'out.ts is not the first 573 packets'

puts_lost_segments_right mend

# The most missing symbols in a row that are mended wherever they stand, and one more where that is too many for one word.
start 'how many symbols in a row may be wrong or missing is what a count of bytes says'
"$top/checks/independent/bursts.py" >"$room/said" || wrong "printed $(cat "$room/said")"
while read -r count flagged; do
    start "$count missing symbols in a row"
    cp "$room/feed.sym" in.sym
    missing 19982 "$count" in.sym
    agrees mend in.sym out.ts
    [[ $(cat "$room/said") == 'segments 1305 runs 1 packets 1249 '*" flagged $flagged loose 0" ]] || wrong "printed $(cat "$room/said")"
    leaves in.sym wanted.ts out.ts
done <<'end'
4141 0
4142 1
end

# Of a stream of zeros whole segments are missing, and others wrong, from one to another, and symbols of its second field sync; each missing
# byte of a word costs half as much as a wrong one. The numbers are those of a program that follows the rules over the whole list.
"$top/checks/independent/reference.py" zeros 624 "$room/zeros.ts"
"$dtx" code "$room/zeros.ts" "$room/zeros.sym" >"$room/said"
while read -r lost spoilt fixed flagged; do
    start "the segments $lost of zeros are missing, and $spoilt wrong"
    cp "$room/zeros.sym" in.sym
    missing $((313 * 832 + 820)) 12 in.sym
    missing $((${lost%-*} * 832)) $(((${lost#*-} - ${lost%-*}) * 832)) in.sym
    head -c $(((${spoilt#*-} - ${spoilt%-*}) * 832)) /dev/zero | tr '\0' '\177' |
        dd of=in.sym bs=832 seek="${spoilt%-*}" conv=notrunc status=none
    run 0 "segments 626 runs 1 packets 573 fixed $fixed flagged $flagged loose 0" mend in.sym out.ts
    ((flagged)) || head -c $((573 * 188)) "$room/zeros.ts" | cmp -s - out.ts || wrong 'out.ts is not the first 573 packets'
    leaves in.sym out.ts
done <<'end'
306-311 0-0 0 0
201-206 0-0 0 0
201-207 0-0 0 48
201-203 210-211 216 0
201-204 210-212 69 44
1-6 0-0 0 0
620-626 0-0 0 2
0-0 311-313 432 0
end

# Where segments are missing: at the begin and the end of a run, over a field sync that is due, and more of them than can be put right.
while read -r shows from count flagged; do
    start "missing symbols: $shows"
    cp "$room/from_order.sym" in.sym
    missing "$from" "$count" in.sym
    agrees mend in.sym out.ts
    [[ $(cat "$room/said") == 'segments 1204 runs 1 packets 937 '*" flagged $flagged loose 0" ]] || wrong "printed $(cat "$room/said")"
done <<'end'
a_symbol 300000 1 0
the_last_symbol_before_the_data 177215 1 0
four_segments_of_the_last_field 700000 3328 0
the_last_three_segments 999232 2496 0
end
start 'missing symbols: a field sync that is due ends its run'
cp "$room/feed.sym" in.sym
missing $((313 * 832)) 832 in.sym
agrees mend in.sym out.ts
[[ $(cat "$room/said") == 'segments 1305 runs 2 packets '* ]] || wrong "printed $(cat "$room/said")"

start 'symbols of which all are missing'
head -c 83200 /dev/zero | tr '\0' '\200' >in.sym
run 10 'no sync' mend in.sym out.ts
[[ -f out.ts && ! -s out.ts ]] || wrong 'out.ts is not empty'

start 'random words and lists of segments, with missing and with wrong symbols'
"$top/checks/independent/mend.py" "$dtx" 16 >"$room/said" || wrong "$(grep FAILED "$room/said" | head -n 3)"

refuses_files mend

start 'packets put right that fill up their output in mid-stream'
fills_up 300 "$room/made.ts" mend "$room/made.sym" out.ts
