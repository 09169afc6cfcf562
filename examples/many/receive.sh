#!/usr/bin/env bash
# receive.sh PIECES SYMBOLS PACKETS: the packets that `dtx receive SYMBOLS PACKETS` writes, by so many receivers side by
# side, each given a piece of the symbols. All field syncs have to stand where the first one says, every 313 segments.
#
# A receiver's run begins at a field sync, and a packet is whole 52 data segments behind its own. So each piece begins at a
# field sync, and has a field sync and 52 data segments more than its fields. Of what it gives, the first 312 packets a
# field are taken. The next one is the first of the next piece, with which it is compared.

. "$(dirname "${BASH_SOURCE[0]}")/pieces.sh"
if (($# != 3)) || ! [[ $1 =~ ^[1-9][0-9]{0,3}$ ]]; then
    fail 'usage: receive.sh PIECES SYMBOLS PACKETS'
fi
pieces=$1 symbols=$2 out=$3
field=313
field_packets=312
more=53
most_segments=626000000
are_apart "$symbols" "$out"
asks_for "$symbols"
make_folder

# looks N: whether a field sync is among the first N segments.
looks() {
    local line status
    part "$symbols" $segment 0 "$1" "$folder/front" || exit 1
    line=$("$folder/dtx" receive "$folder/front" "$folder/front.ts")
    status=$?
    [[ $status == 0 || $line == 'no sync' ]] || answer $status "$line"
    return $status
}

# find_sync: sets `first` to the number of the first segment that looks like a field sync, by halving: of all fronts of the
# symbols the shortest one that has one ends with it.
find_sync() {
    local without=0 with=$field middle
    while ! looks $with; do
        ((with < segments)) || answer 10 'no sync'
        without=$with with=$((2 * with))
    done
    while ((with - without > 1)); do
        middle=$(((with + without) / 2))
        if looks $middle; then with=$middle; else without=$middle; fi
    done
    first=$((with - 1))
}

segments=$(units "$symbols" $segment)
((segments <= most_segments)) || fail "one receiver takes at most $most_segments segments"
find_sync
# With how many fields a piece can begin: so many as have one field sync and 52 data segments, and one at the least.
fields=1
((segments - first < more)) || fields=$(((segments - first - more) / field + 1))
((pieces <= fields)) || pieces=$fields

# field_of N: the field with which piece N begins.
field_of() {
    echo $(($1 * fields / pieces))
}

for ((number = 0; number < pieces; number++)); do
    to=
    if ((number + 1 < pieces)); then
        to=$((first + $(field_of $((number + 1))) * field + more))
    fi
    beside_others part "$symbols" $segment $((first + $(field_of $number) * field)) "$to" "$folder/in-$number"
    has_words $number receive in-$number out-$number
done
others_done
run_all "$pieces"

beside "$out"
given=0
for ((number = 0; number < pieces; number++)); do
    own=$(stat -c %s -- "$folder/out-$number")
    if ((number + 1 < pieces)); then
        own_fields=$(($(field_of $((number + 1))) - $(field_of $number)))
        ((own >= own_fields * field_packets * packet)) || fail "piece $number gave fewer packets than its fields have"
        own=$((own_fields * field_packets * packet))
        same_where_both "$folder/out-$number" $own "$folder/out-$((number + 1))" "out-$number"
    fi
    beside_others put "$folder/out-$number" $own "$made" $given
    given=$((given + own))
done
others_done
(($(stat -c %s -- "$made") == given)) && mv -T -- "$made" "$out" || answer 12 'write fault'
printf 'packets %d\n' $((given / packet))
