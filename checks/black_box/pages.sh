# Networks of more than 35 transmitters, whose operations packets have a page of them each. The numbers are those of a program that shares
# nothing with dtx, as are the files that are compared.

forty=../inputs/forty.toml
plan_of 100 40 >"$inputs/forty.toml"
head -c $((1300 * 188)) "$room/made.ts" >"$inputs/made.ts"

# data_at FEED PACKET BYTE COUNT: bytes of the data of an operations packet, in hexadecimal.
data_at() {
    od -An -tx1 -v -j $(($2 * 188 + 4 + $3)) -N "$4" "$1"
}

# placed_at INDEX,..: makes those packets of ../inputs/given.ts placeholders.
placed_at() {
    spoil_all "$(sed 's/,/:47:1ffa,/g; s/$/:47:1ffa/' <<<"$1")"
}

# is_feed_of PLAN: out.ts is the other program's feed of ../inputs/given.ts under the plan.
is_feed_of() {
    "$top/checks/independent/reference.py" feed ../inputs/given.ts wanted.ts "$1"
    cmp -s wanted.ts out.ts || wrong 'out.ts is another feed'
}

# Kind, page, number of pages and count of entries are bytes 0 and 18 to 20 of the data.
given 3 0
start 'the pages of forty transmitters in turn'
run 0 'packets 1300 filled 4 loose 0' adapt "$forty" ../inputs/made.ts out.ts
while read -r index counter page; do
    [[ $(data_at out.ts "$index" -3 3) == " 1f fa $counter" ]] || wrong "packet $index is no operations packet of its number"
    [[ $(data_at out.ts "$index" 0 1) == ' 02' ]] || wrong "packet $index is of another kind"
    [[ $(data_at out.ts "$index" 18 3) == " $page" ]] || wrong "packet $index has another page"
done <<'end'
100 10 00 02 22
412 11 01 02 06
724 12 00 02 22
1036 13 01 02 06
end
"$top/checks/independent/reference.py" feed ../inputs/made.ts wanted.ts "$forty"
cmp -s wanted.ts out.ts || wrong 'out.ts is another feed'
cp out.ts "$room/forty.ts"

# Pages are told in turn by groups, so the operations packets of a group have one page.
while read -r transmitters packets places pages; do
    start "the operations packets $places of $transmitters transmitters have the pages $pages"
    given "$packets" 0
    placed_at "$places"
    plan_of 1 "$transmitters" >plan.toml
    run 0 "packets $packets filled $(tr ',' '\n' <<<"$places" | wc -l) loose 0" adapt plan.toml ../inputs/given.ts out.ts
    is_feed_of plan.toml
    found=$(for index in ${places//,/ }; do
        printf '%d,' $((16#$(data_at out.ts "$index" 18 1 | tr -d ' ')))
    done)
    [[ $found == "$pages," ]] || wrong "the pages are $found"
done <<'end'
36 12 0,5,11 0,1,0
36 20 3,4,5,7,8,16,18 0,1,1,1,0,1,1
68 12 1,2,9 0,0,1
69 20 0,4,8,12,19 0,1,2,0,1
986 8 0,7 0,1
1020 7 0,6 0,1
end

start 'thirty-five transmitters have no pages'
given 12 0
placed_at 0,5,11
plan_of 1 35 >plan.toml
run 0 'packets 12 filled 3 loose 0' adapt plan.toml ../inputs/given.ts out.ts
is_feed_of plan.toml
[[ $(data_at out.ts 11 0 1)$(data_at out.ts 11 18 1) == ' 01 23' ]] || wrong 'packet 11 is of another kind'

start 'all pages of 1,020 transmitters, and the first ones again'
given 128 0
placed_at "$(seq -s , 0 4 127)"
plan_of 64000 1020 >plan.toml
run 0 'packets 128 filled 32 loose 0' adapt plan.toml ../inputs/given.ts out.ts
is_feed_of plan.toml
[[ $(data_at out.ts 116 18 3) == ' 1d 1e 22' ]] || wrong 'packet 116 has not the last page'
[[ $(data_at out.ts 124 18 3) == ' 01 1e 22' ]] || wrong 'packet 124 has not the second page'

# ---- Exciters ----

given 3 0
while IFS='|' read -r address segments presets mutes log; do
    start "the exciter of address $address in a network of forty"
    run 0 "packets 1300 segments $segments presets $presets mutes $mutes loose 0" excite "$room/forty.ts" "$address" 0 out.sym out.log
    IFS=';' read -ra lines <<<"$log"
    has_log "${lines[@]}"
    run 0 'packets 1300 segments 1305 loose 0' code "$room/forty.ts" feed.sym
    tail -c $((segments * 832)) feed.sym | cmp -s - out.sym || wrong "out.sym is not the last $segments segments of the feed"
done <<'end'
100|1204|4|0|preset 0 0 100 5078080 640;preset 313 0 412 5320052 612;preset 626 1 100 5562023 640;preset 939 1 412 5803995 612
133|1204|4|0|preset 0 0 100 5078080 640;preset 313 0 412 5320052 612;preset 626 1 100 5562023 640;preset 939 1 412 5803995 612
134|891|3|0|preset 0 0 412 5320052 612;preset 313 1 100 5562023 640;preset 626 1 412 5803995 612
139|891|3|0|preset 0 0 412 5320052 612;preset 313 1 100 5562023 640;preset 626 1 412 5803995 612
8|0|0|3|mute 0 unlisted;mute 0 unlisted;mute 0 unlisted
end

start 'an exciter that is late from its page on'
run 0 'packets 1300 segments 0 presets 0 mutes 3 loose 0' excite "$room/forty.ts" 134 5000001 out.sym out.log
has_log 'mute 0 late' 'mute 0 late' 'mute 0 late'

start 'a page that is lost: its exciter goes on by the entry that it had'
{ head -c $((724 * 188)) "$room/forty.ts" && packet 47 31 724 && tail -c +$((725 * 188 + 1)) "$room/forty.ts"; } >in.ts
run 0 'packets 1300 segments 1204 presets 3 mutes 0 loose 0' excite in.ts 100 0 out.sym out.log
has_log 'preset 0 0 100 5078080 640' 'preset 313 0 412 5320052 612' 'preset 939 1 412 5803995 612'

# It is put right, or doesn't read, or is of another place, or has no entry of the first address; that one is then unlisted once the other
# page was told.
excites_changed "$room/forty.ts" 100 0 <<'end'
ten 1204 4 0 preset 0 0 100 5078080 640
pid,eleven,kind,third,pad,stamp,delay,index,page,pages,no-pages,count,no-pages-and-count,twice,fill,place 578 2 0 preset 0 1 100 5562023 640
address 578 2 1 preset 0 1 100 5562023 640
end

# Four groups in a row begin with an order each: PAGE:PAGES:ADDRESS:OFFSET. An entry is in force until its page is told without it, or another
# number of pages. A line of the log is told by its words with an underscore between them.
while read -r segments presets mutes orders log; do
    start "an exciter of transmitter 7 that is told the pages ${orders//,/ }"
    # shellcheck disable=SC2086
    "$top/checks/independent/pages.py" feed ${orders//,/ } in.ts
    run 0 "packets 68 segments $segments presets $presets mutes $mutes loose 0" excite in.ts 7 1000 out.sym out.log
    log=${log//_/ }
    IFS=, read -ra lines <<<"$log"
    has_log "${lines[@]}"
done <<'end'
8 2 1 0:2:8:0,1:2:9:0,1:2:7:-10,0:2:8:0 mute_0_unlisted,preset_0_0_60_5047147_737,preset_4_0_64_5050239_1189
8 2 2 1:2:7:-10,0:2:8:0,1:2:9:0,0:2:8:0 preset_0_0_52_5040962_1372,preset_4_0_56_5044055_285,mute_8_unlisted,mute_8_unlisted
4 1 1 0:2:7:-10,1:3:8:0,0:3:8:0,2:3:8:0 preset_0_0_52_5040962_1372,mute_4_unlisted
12 3 1 0:2:7:-10,1:2:7:20,0:2:8:0,1:2:8:0 preset_0_0_52_5040962_1372,preset_4_0_56_5044085_285,preset_8_0_60_5047177_737,mute_12_unlisted
4 1 2 0:1:8:0,0:2:7:-10,0:1:8:0,1:2:8:0 mute_0_unlisted,preset_0_0_56_5044055_285,mute_4_unlisted
end

# Random lists of packets with pages that are lost, doubled, out of order, or of another number of pages.
start 'random lists of pages'
"$top/checks/independent/pages.py" "$dtx" 40 >"$room/said" || wrong "$(grep FAILED "$room/said" | head -n 3)"

# ---- Networks ----

# forty_over STREAM: the plan of forty, whose network has the stream.
forty_over() {
    cat "$inputs/forty.toml"
    printf '[net]\nstream = "%s"\n' "$1"
}

start 'a network of forty, of which three are given the feed'
stream 1300 s.ts
{ forty_over s.ts && send 100 0 1300 && send 134 0 1300 && send 139 412 888 && receiver 134; } >plan.toml
is_network 0 plan.toml
cmp -s "$room/forty.ts" net.feed || wrong 'net.feed is another feed'
tail -c $((891 * 832)) tx-100.sym | cmp -s - tx-134.sym || wrong 'tx-134.sym is not the end of tx-100.sym'
log_is tx-139.log 'preset 0 1 412 5803995 612'
are_empty tx-101.sym tx-101.log tx-133.sym tx-133.log

start 'a lie in a page stays a page'
stream 1300 s.ts
{
    forty_over s.ts
    send 134 0 100 && lie 134 100 777777777777 && send 134 101 311 && lie 134 412 012345670123 && send 134 413 887
} >plan.toml
is_network 0 plan.toml
log_is tx-134.log 'preset 0 0 412 5320052 612' 'preset 313 1 100 5562023 640' 'preset 626 1 412 5803995 612'

start 'random networks of many transmitters'
"$top/checks/independent/network.py" many "$dtx" 8 >"$room/said" || wrong "$(grep FAILED "$room/said" | head -n 3)"
