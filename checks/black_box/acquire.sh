# Symbols from the air. The numbers and digests are those of programs that share nothing with dtx.

# bytes FROM END: those bytes of the symbols of the feed, up to their end where END is left out.
bytes() {
    tail -c +$(($1 + 1)) "$room/feed.sym" | head -c $((${2:-1085760} - $1))
}

# from_air TITLE LINE PART..: what is made of the capture on the standard input, at one step a unit: the segments of the symbols of the feed
# that each PART, FROM:END, names.
from_air() {
    local line=$2 part
    start "symbols from the air: $1"
    shift 2
    cat >in.sym
    for part in "$@"; do
        bytes $((${part%:*} * 832)) $((${part#*:} * 832))
    done >wanted.sym
    run 0 "$line" acquire 1 in.sym out.sym
    cmp -s wanted.sym out.sym || wrong 'out.sym has other segments'
    leaves in.sym wanted.sym out.sym
}

from_air 'as they were sent' 'symbols 1085760 runs 1 segments 1305 cost 0 loose 0' 0:1305 <"$room/feed.sym"
from_air 'behind 100 of nothing' 'symbols 1085860 runs 1 segments 1305 cost 0 loose 100' 0:1305 < <(head -c 100 /dev/zero && bytes 0)
from_air 'few segments behind 100 of nothing' 'symbols 5092 runs 1 segments 6 cost 0 loose 100' 0:6 < <(head -c 100 /dev/zero && bytes 0 4992)
from_air 'without the first 1000' 'symbols 1084760 runs 1 segments 992 cost 0 loose 259416' 313:1305 < <(bytes 1000)
from_air 'some of a field are lost' 'symbols 1085660 runs 2 segments 992 cost 0 loose 260316' 0:313 626:1305 \
    < <(bytes 0 300000 && bytes 300100)
from_air 'some of two fields are lost, and the run between them is none' 'symbols 1085653 runs 2 segments 679 cost 0 loose 520725' \
    0:313 939:1305 < <(bytes 0 300000 && bytes 300100 600000 && bytes 600007)
from_air 'some of the first sync are lost' 'symbols 1085753 runs 1 segments 992 cost 0 loose 260409' 313:1305 \
    < <(bytes 0 600 && bytes 607)

start 'symbols from the air: more of them than were sent'
{ bytes 0 300000 && head -c 300 /dev/zero && bytes 300000; } >in.sym
run 0 'symbols 1086060 runs 2 segments 1305 cost 26704 loose 300' acquire 1 in.sym out.sym
head -c $((360 * 832)) out.sym | cmp -s - <(bytes 0 $((360 * 832))) || wrong 'the segments before them are other ones'
tail -c $((679 * 832)) out.sym | cmp -s - <(bytes $((626 * 832))) || wrong 'the segments behind them are other ones'

start 'symbols from the air: at eighteen steps a unit'
python3 -c 'import sys; sys.stdout.buffer.write(sys.stdin.buffer.read().translate(bytes(18 * each & 255 for each in range(256))))' \
    <"$room/feed.sym" >in.sym
run 0 'symbols 1085760 runs 1 segments 1305 cost 0 loose 0' acquire 18 in.sym out.sym
cmp -s "$room/feed.sym" out.sym || wrong 'out.sym has other segments'

start 'symbols from the air: none in which a field begins'
head -c 2000 /dev/zero >in.sym
run 10 'no sync' acquire 1 in.sym out.sym
[[ -f out.sym && ! -s out.sym ]] || wrong 'out.sym is not empty'
bytes 832 1664 >in.sym
rm out.sym
run 10 'no sync' acquire 1 in.sym out.sym
[[ -f out.sym && ! -s out.sym ]] || wrong 'out.sym is not empty'
: >in.sym
run 10 'no sync' acquire 18 in.sym out.sym

# captured WORDS LINE CAPTURE MADE PACKETS: of a capture with noise, which `capture.py` makes of the symbols of the feed by those words, what
# is made of it, and what is received of that. The last three are digests.
captured() {
    local scale decibels seed changes
    start "a capture with noise: $1"
    read -r scale decibels seed changes <<<"$1"
    # shellcheck disable=SC2086
    "$top/examples/capture.py" "$scale" "$decibels" "$seed" "$room/feed.sym" in.sym $changes
    has_digest in.sym "$3"
    run 0 "$2" acquire "$scale" in.sym out.sym
    has_digest out.sym "$4"
    "$dtx" receive out.sym out.ts >"$room/said" 2>"$room/complaint"
    has_digest out.ts "$5"
}

captured '1 30 1' 'symbols 1085760 runs 1 segments 1305 cost 340 loose 0' \
    caedd8f23bbb4099e4ddf1f27fc4f0599dcacabacb3d66e4cf54e986a8eec2db \
    6c253b73c974cb029a62103218b92bb240df240b99b248cf48f20d82eaceeee7 \
    c2621661d1fdb70783b472c351877cd188c28b896a075193a0b2c6f8fa310663
captured '1 22 2' 'symbols 1085760 runs 1 segments 1305 cost 184853 loose 0' \
    b272f7c62161059c482cc97d82484fc7b8c1208af15bb3332aa88ba64277c821 \
    5e24abfe41c66466915a782a46cbc6465bc3c49d55710651d527e674b6f6686c \
    c2621661d1fdb70783b472c351877cd188c28b896a075193a0b2c6f8fa310663
captured '18 15 10' 'symbols 1085760 runs 1 segments 1305 cost 202289499 loose 0' \
    7758aa819bb736e671de9e03b30c7b95e81be343d391f2854169fda1bed50242 \
    8890726a137c8dd99b236e547d659842823647995e377c998b37a648a63bfc42 \
    c2621661d1fdb70783b472c351877cd188c28b896a075193a0b2c6f8fa310663
captured '8 15 11 --front 100003' 'symbols 1185763 runs 1 segments 1305 cost 45730487 loose 100003' \
    e77aff04e8d79811fab36e034744fdedd970ce9c87310cc72a1530322f73be86 \
    0674baa6534005df97dbe5ee8565881ded54857f66ed06846b4b843f5de8e517 \
    c2621661d1fdb70783b472c351877cd188c28b896a075193a0b2c6f8fa310663
captured '8 18 12 --cut 300000 300100' 'symbols 1085660 runs 2 segments 992 cost 17514353 loose 260316' \
    5d4f41cb04bac56010737370dc29638fb29b3535669964aa4f163185a9aa0cdb \
    440fe2e5c5f8af4f2c7e6078405a1dcaa5f663eb3902d4df1d61517496842836 \
    15696511968e8b1d8389c588f78c8d9b47a200e4841801481b2c09b29de0e3bf
captured '1 15 4' 'symbols 1085760 runs 1 segments 1305 cost 801231 loose 0' \
    1290c72478e737b2bd998457fa57e2fafecf15f710f17fc46e40344505b97ca5 \
    a0d139f0204adcc61cedc14b8385dc1ba7f95d0c4967d4526d4e86f28610195a \
    c2621661d1fdb70783b472c351877cd188c28b896a075193a0b2c6f8fa310663
captured '4 14 7' 'symbols 1085760 runs 1 segments 1305 cost 14288845 loose 0' \
    5a8f4bec1609843c7c246ee046b7c122779f9fea23454abb7a0fe4b4bdf2c4f0 \
    07915f8553c3d45c07d0ccbc6effaa262e567c689d2b1634a07bd57f884683a0 \
    1857533b132b441ed9185f87b69385f7fe91b92367ef7489bc82104d3ff2263e
captured '8 18 13 --cut 300000 300100 --cut 600000 600007' 'symbols 1085653 runs 2 segments 679 cost 11942263 loose 520725' \
    818977f715be6b0c7f8cde57857da27231ea8db1ec2388c55f2a3f8e05c0baea \
    6bf132f4c0e146b05f80ce470f25343d55931d9d257c492042e309b673f85626 \
    e52b07c6282d6abe99dd6a7e34c90610bc3d472c48a1f8c5ceb2bbf5976972f4
captured '8 18 14 --insert 300000 300' 'symbols 1086060 runs 2 segments 1305 cost 24324510 loose 300' \
    1bdbe62a36a2e9fcd41ce64a045c92929306e3c9d2aa4ccd77bbb527c12bf79a \
    819b2c6bc27c26f824bc70fe86e813fa8cda379a6225efc10e78119696afd354 \
    3724a3077dac068f7245d308833c4930ff483f2325e1311a223686d46b59cd92

start 'random captures'
"$top/checks/independent/acquire.py" "$dtx" 24 >"$room/said" || wrong "$(grep FAILED "$room/said" | head -n 3)"

refuses_files acquire 1

start 'the disk is full of acquired symbols'
fills_up 300 "$room/feed.sym" acquire 1 "$room/feed.sym" out.sym
