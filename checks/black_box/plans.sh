# Plans that are read and plans that are refused. Where a plan is refused no file is begun.

# The beginnings of plans that are whole up to a place: of a network, of its table `net`, of an event, of what is received, of an
# entry of damage; and of shorter ones: up to the maximum delay, up to the transmitters, with one of these, up to what is received, and up
# to the events.
head='start = 0\nmax_delay = 5000000\n[[transmitter]]\naddress = 7\noffset = -10\n[[transmitter]]\naddress = 9\noffset = 25\n'
net=$head'[net]\nstream = "s.ts"\n'
event=$net'[[net.event]]\n'
receive=$net'[net.receive]\n'
damage=$receive'from = 7\n[[net.receive.damage]]\n'
begun='start = 0\n'
delayed=$begun'max_delay = 0\n'
lone=$delayed'transmitter = [{ address = 7, offset = 0 }]\n'
heard=$lone'net.stream = "s"\nnet.receive = '
told=$lone'net.stream = "s"\nnet.event = '

# plan_says TEXT: makes plan.toml of a text, in which the name of a beginning in braces stands for it.
plan_says() {
    local text=$1 part
    for part in head net event receive damage begun delayed lone heard told; do
        text=${text//"{$part}"/${!part}}
    done
    printf '%b' "$text" >plan.toml
}

# Of a text with two faults the one is told that the walk meets first.
given 3 0
while IFS='|' read -r line text; do
    start "a plan that is refused: $line, $text"
    plan_says "$text"
    run 5 "plan $line" adapt plan.toml ../inputs/given.ts out.ts
    leaves plan.toml
done <<'end'
whole 0 text|start = 
whole 0 text|start = 0\nstart = 1\n
whole 0 text|{head}net = 9223372036854775808\n
whole 0 text|\xff
whole 0 text|{head}#\xff\n
whole 0 unknown|{head}[site]\n
whole 0 unknown|starts = 0\n
whole 0 unknown|damage = []\n{head}
start 0 missing|max_delay = 0\n
start 0 missing|
start 0 kind|start = 0.5\n
start 0 kind|start = true\n
start 0 kind|start = "0"\n
start 0 range|start = 10000000\n
start 0 range|start = -1\nmax_delay = -1\n
max_delay 0 missing|start = 9999999\n
max_delay 0 kind|start = 0\nmax_delay = "5"\n
max_delay 0 range|start = 0\nmax_delay = 10000000\n
max_delay 0 range|start = 0\nmax_delay = -1\n
transmitter 0 missing|start = 0\nmax_delay = 9999999\n
transmitter 0 kind|start = 0\nmax_delay = 0\ntransmitter = 7\n
transmitter 0 kind|start = 0\nmax_delay = 0\n[transmitter]\naddress = 7\n
transmitter 0 range|start = 0\nmax_delay = 0\ntransmitter = []\n
transmitter 0 kind|start = 0\nmax_delay = 0\ntransmitter = [7]\n
transmitter 2 unknown|{head}[[transmitter]]\naddress = 11\noffset = 0\npower = 1\n
address 2 missing|{head}[[transmitter]]\noffset = 0\n
address 2 kind|{head}[[transmitter]]\naddress = "11"\noffset = 0\n
address 2 range|{head}[[transmitter]]\naddress = 65536\noffset = 0\n
address 2 range|{head}[[transmitter]]\naddress = -1\noffset = 0\n
address 2 twice|{head}[[transmitter]]\naddress = 7\noffset = 0\n
address 2 twice|{head}[[transmitter]]\naddress = 9\n[[transmitter]]\n
offset 2 missing|{head}[[transmitter]]\naddress = 11\n
offset 2 kind|{head}[[transmitter]]\naddress = 11\noffset = 0.0\n
offset 2 range|{head}[[transmitter]]\naddress = 11\noffset = 32768\n
offset 2 range|{head}[[transmitter]]\naddress = 11\noffset = -32769\n
delay 2 kind|{head}[[transmitter]]\naddress = 11\noffset = 0\ndelay = false\n
delay 2 range|{head}[[transmitter]]\naddress = 11\noffset = 0\ndelay = 4294967296\n
delay 2 range|{head}[[transmitter]]\naddress = 11\noffset = 0\ndelay = -1\n
net 0 kind|{head}[[net]]\nstream = "s.ts"\n
net 0 unknown|{net}streams = 1\n
stream 0 missing|{head}[net]\n
stream 0 kind|{head}[net]\nstream = 1\n
stream 0 range|{head}[net]\nstream = ""\n
event 0 kind|{net}event = 1\n
event 0 kind|{net}event = [1]\n
do 0 missing|{event}to = 7\n
do 0 kind|{event}do = 1\n
do 0 range|{event}do = "sends"\n
event 0 unknown|{event}do = "send"\nto = 7\nfrom = 0\ncount = 1\nseed = 1\n
event 0 unknown|{event}do = "restart"\nto = 7\nfrom = 0\n
to 0 missing|{event}do = "restart"\n
to 0 kind|{event}do = "restart"\nto = "7"\n
to 0 range|{event}do = "restart"\nto = 65536\n
to 0 stranger|{event}do = "restart"\nto = 8\n
to 1 stranger|{event}do = "restart"\nto = 7\n[[net.event]]\ndo = "restart"\nto = 11\n
seed 0 missing|{event}do = "foreign"\nto = 7\nfrom = 0\ncount = 1\n
seed 0 kind|{event}do = "foreign"\nto = 7\nseed = ""\n
seed 0 range|{event}do = "foreign"\nto = 7\nseed = -1\n
from 0 missing|{event}do = "send"\nto = 7\ncount = 1\n
from 0 kind|{event}do = "send"\nto = 7\nfrom = []\n
from 0 range|{event}do = "send"\nto = 7\nfrom = 624000000\n
count 0 missing|{event}do = "send"\nto = 7\nfrom = 0\n
count 0 kind|{event}do = "send"\nto = 7\nfrom = 0\ncount = 1.0\n
count 0 range|{event}do = "send"\nto = 7\nfrom = 0\ncount = 0\n
count 0 range|{event}do = "send"\nto = 7\nfrom = 623999999\ncount = 2\n
at 0 missing|{event}do = "flip"\nto = 7\nfrom = 0\nwith = 1\n
at 0 kind|{event}do = "flip"\nto = 7\nfrom = 0\nat = "0"\n
at 0 range|{event}do = "flip"\nto = 7\nfrom = 0\nat = 188\n
with 0 missing|{event}do = "flip"\nto = 7\nfrom = 0\nat = 187\n
with 0 kind|{event}do = "flip"\nto = 7\nfrom = 0\nat = 187\nwith = true\n
with 0 range|{event}do = "flip"\nto = 7\nfrom = 0\nat = 187\nwith = 0\n
with 0 range|{event}do = "flip"\nto = 7\nfrom = 0\nat = 187\nwith = 256\n
states 0 missing|{event}do = "lie"\nto = 7\nfrom = 0\n
states 0 kind|{event}do = "lie"\nto = 7\nfrom = 0\nstates = 0\n
states 0 range|{event}do = "lie"\nto = 7\nfrom = 0\nstates = "00000000000"\n
states 0 range|{event}do = "lie"\nto = 7\nfrom = 0\nstates = "000000000008"\n
receive 0 kind|{net}receive = 7\n
receive 0 unknown|{receive}from = 7\nto = 7\n
receive.from 0 missing|{receive}
receive.from 0 kind|{receive}from = "7"\n
receive.from 0 range|{receive}from = -1\n
receive.from 0 stranger|{receive}from = 8\n
damage 0 kind|{receive}from = 7\ndamage = 1\n
damage 0 kind|{receive}from = 7\ndamage = [1]\n
damage 0 unknown|{damage}at = 0\nput = 0\nto = 0\n
damage.at 0 missing|{damage}put = 0\n
damage.at 0 kind|{damage}at = "0"\nput = 0\n
damage.at 0 range|{damage}at = 520832000000\nput = 0\n
damage.at 1 order|{damage}at = 0\ncount = 2\nput = 0\n[[net.receive.damage]]\nat = 1\nput = 0\n
damage.count 0 kind|{damage}at = 0\ncount = ""\nput = 0\n
damage.count 0 range|{damage}at = 0\ncount = 0\nput = 0\n
damage.put 0 missing|{damage}at = 0\n
damage.put 0 kind|{damage}at = 0\nput = 0.0\n
damage.put 0 range|{damage}at = 0\nput = 128\n
damage.put 0 range|{damage}at = 0\nput = -129\n
whole 0 text|start = 99999999999999999999
whole 0 unknown|start = "x"\ndamage = []
start 0 missing|max_delay = true
start 0 range|start = 10000000\nmax_delay = 10000000
max_delay 0 missing|{begun}transmitter = 1
max_delay 0 range|{begun}max_delay = 10000000\ntransmitter = []
transmitter 0 missing|{delayed}net = 1
transmitter 0 kind|{delayed}transmitter = {}
transmitter 0 kind|{delayed}transmitter = [1]\nnet = 1
transmitter 0 unknown|{delayed}transmitter = [{ to = 7 }]
address 0 missing|{delayed}transmitter = [{ offset = "x" }]
address 0 kind|{delayed}transmitter = [{ address = "7", offset = "x" }]
address 0 range|{delayed}transmitter = [{ address = -1 }]
address 0 range|{delayed}transmitter = [{ address = 65536 }]
offset 0 missing|{delayed}transmitter = [{ address = 7, delay = true }]
offset 0 kind|{delayed}transmitter = [{ address = 7, offset = 0.5, delay = true }]
offset 0 range|{delayed}transmitter = [{ address = 7, offset = -32769, delay = -1 }]
offset 0 range|{delayed}transmitter = [{ address = 7, offset = 32768 }, { address = 7, offset = 0 }]
delay 0 kind|{delayed}transmitter = [{ address = 7, offset = 0, delay = true }, 1]
delay 0 range|{delayed}transmitter = [{ address = 7, offset = 0, delay = 4294967296 }, 1]
delay 0 range|{delayed}transmitter = [{ address = 7, offset = 0, delay = -1 }]\nnet = 1
address 1 twice|{delayed}transmitter = [{ address = 7, offset = -10 }, { address = 7, offset = 25 }]
address 2 twice|{delayed}transmitter = [{ address = 7, offset = 0 }, { address = 9, offset = 0 }, { address = 7 }]
address 2 missing|{delayed}transmitter = [{ address = 7, offset = 0 }, { address = 9, offset = 0 }, {}]
net 0 kind|{lone}net = 1
net 0 unknown|{lone}net = { stream = 1, from = 7 }
stream 0 missing|{lone}net = { event = 1 }
stream 0 kind|{lone}net = { stream = 1, event = 1 }
stream 0 range|{lone}net = { stream = "", event = 1 }
event 0 kind|{lone}net = { stream = "s", event = 1, receive = 1 }
event 0 kind|{lone}net = { stream = "s", event = [1], receive = 1 }
receive 0 kind|{lone}net = { stream = "s", event = [], receive = 1 }
receive 0 kind|{heard}[]
receive 0 unknown|{heard}{ to = 7 }
receive.from 0 missing|{heard}{ damage = 1 }
receive.from 0 kind|{heard}{ from = true, damage = 1 }
receive.from 0 range|{heard}{ from = -7, damage = 1 }
receive.from 0 stranger|{heard}{ from = 8, damage = 1 }
damage.at 1 order|{heard}{ from = 7, damage = [{ at = 0, put = 0 }, { at = 0, put = 0 }] }
do 0 missing|{told}[{ more = 1 }]
do 0 kind|{told}[{ do = 1, more = 1 }]
do 0 range|{told}[{ do = "stop", more = 1 }]
event 0 unknown|{told}[{ do = "send", seed = 1, to = 8 }]
event 0 unknown|{told}[{ do = "foreign", at = 1 }]
event 0 unknown|{told}[{ do = "flip", count = 1 }]
event 0 unknown|{told}[{ do = "lie", with = 1 }]
event 0 unknown|{told}[{ do = "restart", from = 0 }]
to 0 missing|{told}[{ do = "send", from = true }]
to 0 kind|{told}[{ do = "send", to = 7.0 }]
to 0 range|{told}[{ do = "send", to = 65536 }]
to 0 stranger|{told}[{ do = "foreign", to = 8, seed = -1 }]
seed 0 missing|{told}[{ do = "foreign", to = 7, from = -1 }]
seed 0 kind|{told}[{ do = "foreign", to = 7, seed = "1" }]
seed 0 range|{told}[{ do = "foreign", to = 7, seed = -1, from = -1 }]
from 0 missing|{told}[{ do = "send", to = 7, count = 0 }]
from 0 kind|{told}[{ do = "lie", to = 7, from = true, states = 1 }]
from 0 range|{told}[{ do = "send", to = 7, from = 624000000, count = 0 }]
to 1 missing|{told}[{ do = "restart", to = 7 }, { do = "restart" }]\nnet.receive = 1
count 0 range|{told}[{ do = "foreign", to = 7, seed = 0, from = 0, count = 0 }]
count 0 range|{told}[{ do = "send", to = 7, from = 623999999, count = 2 }, 1]
at 0 missing|{told}[{ do = "flip", to = 7, from = 0, with = 0 }]
at 0 range|{told}[{ do = "flip", to = 7, from = 0, at = 188, with = 0 }]
with 0 kind|{told}[{ do = "flip", to = 7, from = 0, at = 187, with = [] }]
states 0 range|{told}[{ do = "lie", to = 7, from = 0, states = "0123456701238" }]
states 0 range|{told}[{ do = "lie", to = 7, from = 0, states = "012345670128" }]
end

start 'a plan beyond 16,777,216 bytes'
{ printf '%b' "$head" && yes '' | head -c $((16777217 - $(printf '%b' "$head" | wc -c))); } >plan.toml
run 5 'plan whole 0 size' adapt plan.toml ../inputs/given.ts out.ts
leaves plan.toml

start 'a plan of just 16,777,216 bytes'
truncate -s 0 plan.toml
{ printf '%b' "$head" && yes '' | head -c $((16777216 - $(printf '%b' "$head" | wc -c))); } >plan.toml
run 0 'packets 3 filled 0 loose 0' adapt plan.toml ../inputs/given.ts out.ts
leaves plan.toml out.ts

# Plans at the ends of their ranges, and the table `net` whole.
while IFS= read -r text; do
    start "a plan that is read: $text"
    plan_says "$text"
    run 0 'packets 3 filled 0 loose 0' adapt plan.toml ../inputs/given.ts out.ts
    holds out.ts 3
    leaves plan.toml out.ts
done <<'end'
{head}
start = 9999999\nmax_delay = 9999999\n[[transmitter]]\naddress = 65535\noffset = -32768\ndelay = 4294967295\n
start = 0\nmax_delay = 0\ntransmitter = [{ address = 0, offset = 32767 }]\n
{net}
{head}[net]\nstream = 's.ts'\n
{event}do = "send"\nto = 7\nfrom = 623999999\ncount = 1\n[[net.event]]\ndo = "restart"\nto = 9\n
{event}do = "foreign"\nto = 7\nseed = 9223372036854775807\nfrom = 0\ncount = 624000000\n
{event}do = "flip"\nto = 9\nfrom = 0\nat = 0\nwith = 255\n[[net.event]]\ndo = "lie"\nto = 9\nfrom = 0\nstates = "012345677777"\n
{receive}from = 9\n
{damage}at = 0\nput = -128\n[[net.receive.damage]]\nat = 1\ncount = 520832000000\nput = 127\n
end

start 'a plan of 1,020 transmitters, and one of 1,021'
for count in 35 36 1020; do
    plan_of 1 $count >plan.toml
    run 0 'packets 3 filled 0 loose 0' adapt plan.toml ../inputs/given.ts out.ts
done
rm out.ts
plan_of 1 1021 >plan.toml
run 5 'plan transmitter 0 range' adapt plan.toml ../inputs/given.ts out.ts
leaves plan.toml

start 'a plan of 1,021 transmitters whose entries break rules'
{ printf 'start = 0\nmax_delay = 0\ntransmitter = [' && printf '0, %.0s' {1..1021} && echo ']'; } >plan.toml
run 5 'plan transmitter 0 range' adapt plan.toml ../inputs/given.ts out.ts
sed -i 's/0, //' plan.toml
run 5 'plan transmitter 0 kind' adapt plan.toml ../inputs/given.ts out.ts

# How many entries a list may have, and how many bytes a name: what is met behind that is told, or else the list or the name.
while IFS='|' read -r line before entry count behind; do
    start "a plan with $count times $entry: $line"
    plan_says "$before$(printf "$entry%.0s" $(seq "$count"))$behind"
    run 5 "plan $line" adapt plan.toml ../inputs/given.ts out.ts
    leaves plan.toml
done <<'end'
event 0 kind|{told}[|1,|10000|]
event 0 range|{told}[|1,|10001|]
damage 0 kind|{heard}{ from = 7, damage = [|1,|100000|] }
damage 0 range|{heard}{ from = 7, damage = [|1,|100001|] }
event 0 kind|{lone}net = { event = 1, stream = "|a|255|" }
stream 0 range|{lone}net = { event = 1, stream = "|a|256|" }
stream 0 range|{lone}net = { event = 1, stream = "|\xc3\xa9|128|" }
end

# The last of 1,020 entries breaks a rule.
while IFS='|' read -r line last; do
    start "1,020 transmitters, the last of which is refused: $line"
    plan_of 1 1019 >plan.toml
    printf '[[transmitter]]\n%b' "$last" >>plan.toml
    run 5 "plan $line" adapt plan.toml ../inputs/given.ts out.ts
    leaves plan.toml
done <<'end'
address 1019 twice|address = 1\noffset = 0\n
address 1019 twice|address = 1019\noffset = 0\n
address 1019 range|address = 65536\noffset = 0\n
offset 1019 missing|address = 1020\n
transmitter 1019 unknown|address = 1020\noffset = 0\npower = 1\n
end

start 'an event for the last of 1,020 transmitters, and one for nobody'
{ plan_of 1 1020 && printf '[net]\nstream = "s.ts"\n[[net.event]]\ndo = "restart"\nto = 1020\n'; } >plan.toml
run 0 'packets 3 filled 0 loose 0' adapt plan.toml ../inputs/given.ts out.ts
printf '[[net.event]]\ndo = "restart"\nto = 1021\n' >>plan.toml
run 5 'plan to 1 stranger' adapt plan.toml ../inputs/given.ts out.ts

# The examples: plans that are read, and a plan for each common mistake, which says its line in its last comment.
for example in "$top"/examples/*.toml; do
    start "the example ${example##*/}"
    run 0 'packets 3 filled 0 loose 0' adapt "$example" ../inputs/given.ts out.ts
done
for example in "$top"/examples/mistakes/*.toml; do
    start "the mistake ${example##*/}"
    run 5 "$(sed -n 's/^# dtx says: //p' "$example")" adapt "$example" ../inputs/given.ts out.ts
    leaves_nothing
done
