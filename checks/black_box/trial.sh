# A trial. The numbers are those of a program that shares nothing with dtx; its files are those of `make` and of `net` under its plan.

start 'a trial of a hundred fields'
run 0 'feed 31200 filled 100 steps 93650 packets 30837 fixed 0 flagged 0' trial 1 31200
leaves trial.ts net.feed net.ts tx-{1,2,3}.{sym,log}
for file in tx-{1,2,3}.sym; do
    [[ $(stat -c %s $file) == 25957568 ]] || wrong "$file has $(stat -c %s $file) bytes"
    cmp -s tx-1.sym $file || wrong "$file is not tx-1.sym"
done

start 'a trial is the network of its plan over a made stream'
run 0 'packets 1300' make 7 1300 trial.ts
cp trial.ts "$room/stream-of-trial.ts"
{
    printf 'start = 0\nmax_delay = 5000000\n'
    printf '[[transmitter]]\naddress = %s\noffset = %s\n' 1 0 2 25 3 -10
    printf '[net]\nstream = "trial.ts"\n'
    send 1 0 1300 && send 2 0 1300 && foreign 3 7 0 50 && send 3 0 1300 && receiver 3
} >plan.toml
is_network 0 plan.toml
line=$(cat "$room/said")
rm -rf tx-* net.* trial.ts
run 0 "$line" trial 7 1300
for file in "$room"/wanted/*; do
    cmp -s "$file" "${file##*/}" || wrong "${file##*/} is another file"
done
cmp -s trial.ts "$room/stream-of-trial.ts" || wrong 'trial.ts is another stream'
leaves plan.toml trial.ts net.feed net.ts tx-{1,2,3}.{sym,log}

start 'a trial of one frame'
run 0 'feed 624 filled 2 steps 1922 packets 261 fixed 0 flagged 0' trial 1 624
[[ $(stat -c %s tx-3.sym) == 436800 ]] || wrong "tx-3.sym has $(stat -c %s tx-3.sym) bytes"
head -c 436800 tx-1.sym | cmp -s - tx-3.sym || wrong 'tx-3.sym is not the front of tx-1.sym'
leaves trial.ts net.feed net.ts tx-{1,2,3}.{sym,log}

start 'a trial of less than a frame'
run 2 "$usage" trial 1 623
leaves_nothing

start 'a trial of too many packets'
run 2 "$usage" trial 1 1000001
leaves_nothing

# A file of a trial that is a folder can't be begun; those before it stand.
while read -r folder_name left; do
    start "a trial whose $folder_name can't be begun"
    mkdir "$folder_name"
    run 12 'write fault' trial 1 624
    # shellcheck disable=SC2086
    leaves "$folder_name" $left
done <<'end'
trial.ts
net.feed trial.ts
tx-2.sym trial.ts net.feed tx-1.sym tx-1.log
net.ts trial.ts net.feed tx-1.sym tx-1.log tx-2.sym tx-2.log tx-3.sym tx-3.log
end
