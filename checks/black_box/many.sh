# One feed on many processes: the scripts of examples/many give the bytes of one process, and its line where it is theirs.

many=$top/examples/many
mkdir "$room/many"
(
    cd "$room/many" || exit 1
    "$dtx" make 3 4000 made.ts
    "$dtx" adapt "$inputs/plan.toml" made.ts feed
    "$dtx" excite feed 7 1000 one.sym one.log >one.line
    "$dtx" receive one.sym one.ts
    sed '/^\[net\]/,$d' "$inputs/plan.toml" >net.toml
    printf '[net]\nstream = "../made.ts"\n' >>net.toml
    printf '[[net.event]]\ndo = "send"\nto = %d\nfrom = 0\ncount = 4000\n' 7 9 >>net.toml
    # Three fields and a part of a fourth; then the third one's field sync is damaged in the one, the second one's in the other.
    "$dtx" code feed whole.sym
    head -c $((966 * 832)) whole.sym >short.sym
    "$dtx" receive short.sym short.ts
    head -c $((939 * 832)) whole.sym >none.sym
    cp none.sym few.sym
    head -c 832 /dev/zero | dd of=none.sym bs=832 seek=626 conv=notrunc status=none
    head -c 832 /dev/zero | dd of=few.sym bs=832 seek=313 conv=notrunc status=none
    # A feed with few orders: but for some, its placeholders are other packets.
    cp made.ts sparse.ts
    for place in 412 724 1036 1348 1660 1972 2284 2596 2908 3220; do
        printf '\x47\x00\x31' | dd of=sparse.ts bs=1 seek=$((place * 188)) conv=notrunc status=none
    done
    "$dtx" adapt "$inputs/plan.toml" sparse.ts sparse.feed
    "$dtx" excite sparse.feed 7 1000 sparse.sym sparse.log >sparse.line
    # A network of three pages, so one field in three lists an exciter.
    plan_of 100 70 >seventy.toml
    "$dtx" adapt seventy.toml made.ts seventy.feed
    "$dtx" excite seventy.feed 169 0 seventy.sym seventy.log >seventy.line
) >"$room/many.said"
given 0 0

# same NAME..: each file all.NAME is the one that one process wrote, ONE.NAME.
same() {
    local one=$1 name
    shift
    for name in "$@"; do
        cmp -s "all.$name" "$room/many/$one.$name" || wrong "all.$name is another file than that of one process"
    done
}

# in_many PIECES: the exciter and the receiver in so many pieces.
in_many() {
    program=("$many/excite.sh")
    run 0 "$(cat "$room/many/one.line")" "$1" ../many/feed 7 1000 all.sym all.log
    program=("$many/receive.sh")
    run 0 "packets $(($(stat -c %s "$room/many/one.ts") / 188))" "$1" ../many/one.sym all.ts
    same one sym log ts
    leaves all.sym all.log all.ts
}

# network_in_many: a network, and its files by one process.
network_in_many() {
    program=("$many/network.sh")
    run 0 "tx-7 $(cat "$room/many/one.line")
tx-9 $(cat "$room/many/one.line")" ../many/net.toml ../many/made.ts 7:1000 9:2000
    rm -rf "$room/many/net"
    mkdir "$room/many/net"
    (cd "$room/many/net" && "$dtx" net ../net.toml >"$room/many.said") || wrong 'the network is not done'
    diff -r . "$room/many/net" >"$room/many.said" || wrong "$(head -n 1 "$room/many.said")"
}

# excite_by VARIABLE=VALUE..: the exciter in three pieces, run elsewhere, so that more may stand on standard error.
excite_by() {
    env "$@" "$many/excite.sh" 3 ../many/feed 7 1000 all.sym all.log >"$room/said" 2>"$room/complaint"
    [[ $? == 0 && $(cat "$room/said") == "$(cat "$room/many/one.line")" ]] || wrong "printed $(cat "$room/said" "$room/complaint")"
    same one sym log
    leaves all.sym all.log
}

for pieces in 1 3 7 50; do
    start "pieces of a feed and of its symbols, $pieces or as many as they have, are joined to what one process writes"
    in_many $pieces
done

start 'the transmitters of a network, one process each, send what the network sends'
network_in_many

if command -v parallel >/dev/null; then
    export PARALLEL=1
    start 'pieces by GNU parallel are joined to what one process writes'
    in_many 3
    start 'the transmitters of a network by GNU parallel send what the network sends'
    network_in_many
    unset PARALLEL
else
    left_out 'pieces by GNU parallel' parallel
fi

# In the place of another machine: what comes to it is done here, in a home and by a shell of its own, as a login has them.
mkdir "$room/many/home" "$room/many/away"
cat >"$room/many/away/ssh" <<end
#!/usr/bin/env bash
export HOME=$room/many/home SHELL=$BASH
cd || exit
while [[ \$1 == -* ]]; do
    case \$1 in -l | -o | -p) shift ;; esac
    shift
done
shift
[[ \$1 != -- ]] || shift
exec bash -c "\$*"
end
chmod +x "$room/many/away/ssh"

if command -v parallel >/dev/null && command -v rsync >/dev/null; then
    start 'pieces on another machine are joined to what one process writes'
    excite_by PATH="$room/many/away:$PATH" SSHLOGIN=elsewhere
else
    left_out 'pieces on another machine' 'parallel and rsync'
fi

# In the place of a cluster: it runs the jobs of an array one after the other.
mkdir "$room/many/cluster"
cat >"$room/many/cluster/sbatch" <<'end'
#!/usr/bin/env bash
echo 'Submitted batch job 1'
[[ $1 == --wait && $2 == --array=0-* ]] || exit 1
for ((job = 0; job <= ${2#--array=0-}; job++)); do
    SLURM_ARRAY_TASK_ID=$job "$3" || exit
done
end
chmod +x "$room/many/cluster/sbatch"

start 'pieces as an array of jobs are joined to what one process writes'
excite_by PATH="$room/many/cluster:$PATH" SLURM=1 FOLDER="$room/many/pieces"

start 'pieces of a feed with three pages'
program=("$many/excite.sh")
run 0 "$(cat "$room/many/seventy.line")" 3 ../many/seventy.feed 169 0 all.sym all.log
same seventy sym log

start 'pieces of a feed with few orders'
program=("$many/excite.sh")
run 0 "$(cat "$room/many/sparse.line")" 7 ../many/sparse.feed 7 1000 all.sym all.log
same sparse sym log

start 'pieces of symbols whose last field is short'
program=("$many/receive.sh")
run 0 "packets $(($(stat -c %s "$room/many/short.ts") / 188))" 9 ../many/short.sym all.ts
same short ts

# fails_in_pieces STATUS LINE COMPLAINT WORD..: the script, given the words, ends with the status, prints that, and leaves nothing.
fails_in_pieces() {
    local status=$1 line=$2 complaint=$3 script=$4
    shift 4
    "$many/$script" "$@" >"$room/said" 2>"$room/complaint"
    [[ $? == "$status" ]] || wrong "another status than $status"
    [[ $(cat "$room/said") == "$line" ]] || wrong "printed $(cat "$room/said")"
    [[ $(cat "$room/complaint") == "$complaint" ]] || wrong "on standard error: $(cat "$room/complaint")"
    leaves_nothing
}

start 'a piece that fails ends the whole with its line'
fails_in_pieces 10 'piece 2: no sync' '' receive.sh 3 ../many/none.sym all.ts
fails_in_pieces 1 '' 'piece 0 gave fewer packets than its fields have' receive.sh 3 ../many/few.sym all.ts
fails_in_pieces 1 '' 'behind packet 1872 this exciter sends nothing, so no piece can begin there' \
    excite.sh 2 ../many/feed 8 1000 all.sym all.log
fails_in_pieces 4 'absent nothing' '' excite.sh 2 nothing 7 1000 all.sym all.log
fails_in_pieces 3 'same ../many/feed' '' excite.sh 2 ../many/feed 7 1000 ../many/feed all.log
fails_in_pieces 4 'absent nothing' '' receive.sh 2 nothing all.ts
fails_in_pieces 4 'absent nothing' '' network.sh nothing ../many/made.ts 7:1000
fails_in_pieces 5 'plan whole 0 text' '' network.sh ../many/made.ts ../many/net.toml 7:1000
fails_in_pieces 12 'write fault' '' receive.sh 2 ../many/one.sym "$room"
