# What a transmitter sends that is fed from the air, and its log. The numbers and digests are those of programs that share nothing with dtx.

start 'a repeater that is given the symbols of a feed'
run 0 'segments 1305 runs 1 packets 1249 sent 1151 presets 4 mutes 0 loose 0' repeat "$room/feed.sym" 7 1000 out.sym out.log
head -c 957632 "$room/from_order.sym" | cmp -s - out.sym || wrong 'out.sym is not the front of what an exciter sends'
has_digest out.log 42071eb44f95e818bfcf4eb4a16103cb4638dc713e3a49989c7d8621846571f4
leaves out.sym out.log

start 'a repeater that is given the symbols of a transmitter'
run 0 'segments 1204 runs 1 packets 937 sent 525 presets 2 mutes 0 loose 0' repeat "$room/from_order.sym" 7 1000 out.sym out.log
has_log 'preset 0 1 100 5562013 640' 'preset 313 1 412 5803985 612'

start 'fields take turns, whatever a later sync says'
cp "$room/from_order.sym" in.sym
dd if="$room/from_order.sym" of=in.sym bs=832 skip=212 seek=525 count=1 conv=notrunc status=none
cmp -s "$room/from_order.sym" in.sym && wrong 'the sync is no other one'
run 0 'segments 1204 runs 1 packets 937 sent 525 presets 2 mutes 0 loose 0' repeat in.sym 7 1000 out.sym out.log
has_log 'preset 0 1 100 5562013 640' 'preset 313 1 412 5803985 612'

start 'the other transmitter sends the same 35 ticks later'
run 0 'segments 1305 runs 1 packets 1249 sent 1151 presets 4 mutes 0 loose 0' repeat "$room/feed.sym" 9 2000 out.sym out.log
head -c 957632 "$room/from_order.sym" | cmp -s - out.sym || wrong 'out.sym is not the front of what an exciter sends'
has_log 'preset 0 0 100 5078105 640' 'preset 313 0 412 5320077 612' 'preset 626 1 100 5562048 640' 'preset 939 1 412 5804020 612'

start 'a repeater that is not listed'
run 0 'segments 1305 runs 1 packets 1249 sent 0 presets 0 mutes 4 loose 0' repeat "$room/feed.sym" 8 1000 out.sym out.log
has_log 'mute 0 unlisted' 'mute 0 unlisted' 'mute 0 unlisted' 'mute 0 unlisted'

# The first run ends where its sixth field sync is due, 260 segments behind the begin of the second copy, whose next one begins the second run.
start 'a second run is a new life'
cat "$room/feed.sym" "$room/feed.sym" >in.sym
"$dtx" repeat in.sym 7 1000 out.sym out.log >"$room/said" 2>"$room/complaint"
ended 0 $?
[[ $(cat "$room/said") == 'segments 2610 runs 2 packets 2446 sent 1937 presets 6 mutes 0 loose 0' ]] || wrong "printed $(cat "$room/said")"
[[ $(grep -n restart out.log) == '5:restart 1412' ]] || wrong "the log is '$(tr '\n' ';' <out.log)'"
tail -n +6 out.log | head -n 1 | grep -qx 'preset 1412 1 100 5562013 640' || wrong "the log is '$(tr '\n' ';' <out.log)'"

start 'symbols without a field sync leave empty files'
head -c 83200 /dev/zero >in.sym
cp ../inputs/long.ts out.log
run 10 'no sync' repeat in.sym 7 1000 out.sym out.log
[[ -f out.sym && ! -s out.sym && -f out.log && ! -s out.log ]] || wrong 'out.sym or out.log is not empty'
leaves in.sym out.sym out.log

start 'random symbol files, cut, spliced and damaged'
"$top/checks/independent/repeat.py" "$dtx" 24 >"$room/said" || wrong "$(grep FAILED "$room/said" | head -n 3)"

# ---- Refusals ----

refuses_symbols_and_log "$room/feed.sym" "$room/from_order.sym" repeat 7 1000
