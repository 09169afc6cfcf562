#!/usr/bin/env bash
# excite.sh PIECES FEED ADDRESS DELAY SYMBOLS LOG: what `dtx excite FEED ADDRESS DELAY SYMBOLS LOG` writes and prints, by
# so many exciters side by side, each given a piece of the feed. The feed is one of `dtx adapt`, unchanged, in which this
# exciter is listed and in time.
#
# An exciter that is given a feed from one of its marks on sends from its first listing on what one sends that was given all
# of it. So each piece begins at a mark, and goes on until the next one has begun to send: where both send, the symbols and
# the lines of the log are compared, and the next one's are taken.

. "$(dirname "${BASH_SOURCE[0]}")/pieces.sh"
if (($# != 6)) || ! [[ $1 =~ ^[1-9][0-9]{0,3}$ ]]; then
    fail 'usage: excite.sh PIECES FEED ADDRESS DELAY SYMBOLS LOG'
fi
pieces=$1 feed=$2 address=$3 delay=$4 symbols=$5 log=$6
frame=624
most_packets=624000000
are_apart "$feed" "$symbols" "$log"
asks_for "$feed"
make_folder

packets=$(units "$feed" $packet)
((packets <= most_packets)) || fail "one exciter takes at most $most_packets packets"
frames=$(((packets + frame - 1) / frame))
((frames)) || frames=1
((pieces <= frames)) || pieces=$frames

# first_packet N: the mark with which piece N begins.
first_packet() {
    echo $(($1 * frames / pieces * frame))
}

# find_order N: sets `order` to how many packets piece N is given until it has begun to send: the fewest frames.
find_order() {
    local from line status
    from=$(first_packet "$1")
    for ((order = frame; ; order += frame)); do
        part "$feed" $packet "$from" $((from + order)) "$folder/front" || exit 1
        line=$("$folder/dtx" excite "$folder/front" "$address" "$delay" "$folder/front.sym" "$folder/front.log")
        status=$?
        ((status == 0)) || answer $status "piece $1: $line"
        grep -q '^preset ' "$folder/front.log" && return
        ((from + order < packets)) || fail "behind packet $from this exciter sends nothing, so no piece can begin there"
    done
}

for ((number = 0; number < pieces; number++)); do
    to=
    if ((number + 1 < pieces)); then
        find_order $((number + 1))
        to=$(($(first_packet $((number + 1))) + order))
    fi
    beside_others part "$feed" $packet "$(first_packet $number)" "$to" "$folder/in-$number"
    has_words $number excite in-$number "$address" "$delay" out-$number log-$number
done
others_done
run_all "$pieces" log

# lines_from FILE COUNT FEWER: the lines from that one on, which count so many segments fewer.
lines_from() {
    tail -n +"$2" "$1" | awk -v fewer="$3" '{ $2 = sprintf("%.0f", $2 - fewer); print }'
}

# seam N: sets `line` to the number of the line of piece N that is the first preset of the next piece, and `segments` to how
# many segments piece N sends before it. What both send from there on is the same.
seam() {
    local next preset found
    next=$(grep -n -m 1 '^preset ' "$folder/log-$(($1 + 1))")
    read -r _ _ preset <<<"${next#*:}"
    found=$(grep -n "^preset [0-9]* $preset\$" "$folder/log-$1" | tail -n 1)
    [[ $found ]] || fail "piece $1 has no line: preset .. $preset"
    line=${found%%:*}
    read -r _ segments _ <<<"${found#*:}"
    lines_from "$folder/log-$1" "$line" "$segments" >"$folder/front.lines" || exit 1
    tail -n +"${next%%:*}" "$folder/log-$(($1 + 1))" >"$folder/front.next" || exit 1
    same_where_both "$folder/front.lines" 0 "$folder/front.next" "log-$1"
    same_where_both "$folder/out-$1" $((segments * segment)) "$folder/out-$(($1 + 1))" "out-$1"
}

# join_log N: the lines of piece N before line `line`, behind those of the pieces before it, which sent so many segments.
join_log() {
    local begun=1
    head -n $((line - 1)) "$folder/log-$1" >"$folder/front.own" || exit 1
    (($1 == 0)) || begun=$(grep -n -m 1 '^preset ' "$folder/front.own" | sed 's/:.*//')
    [[ ! $begun ]] || lines_from "$folder/front.own" "$begun" -$sent >>"$joined_log" || exit 1
}

beside "$symbols"
joined_symbols=$made
beside "$log"
joined_log=$made
sent=0
for ((number = 0; number < pieces; number++)); do
    if ((number + 1 < pieces)); then
        seam $number
    else
        segments=$(units "$folder/out-$number" $segment)
        line=$(($(wc -l <"$folder/log-$number") + 1))
    fi
    beside_others put "$folder/out-$number" $((segments * segment)) "$joined_symbols" $((sent * segment))
    join_log $number
    sent=$((sent + segments))
done
others_done
(($(stat -c %s -- "$joined_symbols") == sent * segment)) || answer 12 'write fault'

presets=$(grep -c '^preset ' "$joined_log")
mutes=$(grep -c '^mute ' "$joined_log")
mv -T -- "$joined_symbols" "$symbols" && mv -T -- "$joined_log" "$log" || answer 12 'write fault'
printf 'packets %d segments %d presets %d mutes %d loose %d\n' "$packets" $sent "$presets" "$mutes" \
    $(($(stat -L -c %s -- "$feed") % packet))
