# Outputs that are inputs under other names: nothing is lost.

# overlaps FILE WORD..: the program, given the words, finds that an output is a file that is read, or another output: it
# ends with a write fault, says why on standard error, and the file stays as it was.
overlaps() {
    local file=$1 status
    shift
    cp "$file" "$room/before"
    "${program[@]}" "$@" >"$room/said" 2>"$room/complaint"
    status=$?
    [[ $status == 12 ]] || wrong "$*: status $status, not 12"
    [[ $(cat "$room/said") == 'write fault' ]] || wrong "$*: printed '$(cat -v "$room/said")'"
    [[ $(cat "$room/complaint") == 'dtx: an output is the same file as an input, another output or standard output' ]] ||
        wrong "$*: on standard error '$(cat -v "$room/complaint")'"
    cmp -s "$file" "$room/before" || wrong "$*: $file was changed"
    [[ $(sums) == "$inputs_before" ]] || wrong "$*: an input was changed"
}

# named FILE: other names of a file of this folder, each on a line: by `./`, by `..`, whole, and by three links.
named() {
    local file=$1
    rm -f symbolic hard chain
    ln -s "$file" symbolic
    ln "$file" hard
    ln -s symbolic chain
    printf '%s\n' "./$file" "../folder/$file" "$folder/$file" symbolic hard chain
}

given 624 0
start 'an output that is the input under another name'
cp ../inputs/given.ts in.ts
"$dtx" code in.ts "$room/given.sym" >/dev/null
cp "$room/given.sym" in.sym
printf 'damage = [{ at = 1, put = 2 }]\n' >changes.toml
while read -r name; do
    overlaps in.ts adapt "$plan" in.ts "$name"
    overlaps in.ts adapt "$plan" "$name" in.ts
    overlaps in.ts code in.ts "$name"
    overlaps in.ts place in.ts "$name"
    overlaps in.ts dvb code in.ts "$name"
    overlaps in.ts dvb read in.ts "$name"
    overlaps in.ts watch in.ts "$name"
    overlaps in.ts excite in.ts 7 0 "$name" out.log
    rm -f out.log out.sym
    overlaps in.ts excite in.ts 7 0 out.sym "$name"
    rm -f out.log out.sym
    overlaps in.ts hurt in.ts changes.toml "$name"
done < <(named in.ts)
while read -r name; do
    overlaps in.sym receive in.sym "$name"
    overlaps in.sym soft in.sym "$name"
    overlaps in.sym mend in.sym "$name"
    overlaps in.sym acquire 1 in.sym "$name"
    overlaps in.sym refine 1 2 in.sym "$name"
    for words in 'repeat in.sym 7 0' 'level in.sym'; do
        # shellcheck disable=SC2086
        overlaps in.sym $words "$name" out.log
        rm -f out.log out.sym
        # shellcheck disable=SC2086
        overlaps in.sym $words out.sym "$name"
        rm -f out.log out.sym
    done
done < <(named in.sym)
while read -r name; do
    overlaps changes.toml hurt in.ts changes.toml "$name"
done < <(named changes.toml)
cp "$plan" plan.toml
while read -r name; do
    overlaps plan.toml adapt plan.toml in.ts "$name"
done < <(named plan.toml)

start 'two outputs that are one file'
: >out
ln -s out other
overlaps ../inputs/given.ts excite ../inputs/given.ts 7 0 out other
overlaps ../inputs/given.ts excite ../inputs/given.ts 7 0 out ./out
overlaps ../inputs/given.ts level ../inputs/given.ts out other

start 'a link to an input in the place of a file that a network writes'
for name in net.feed tx-7.sym tx-7.log tx-9.sym tx-9.log net.ts; do
    rm -f ./*
    cp ../inputs/given.ts s.ts
    {
        network s.ts && send 7 0 624 && send 9 0 624
        printf '[net.receive]\nfrom = 7\n'
    } >plan.toml
    ln -s s.ts "$name"
    overlaps s.ts net plan.toml
    ln -sf plan.toml "$name"
    overlaps plan.toml net plan.toml
    rm "$name"
    ln s.ts "$name"
    overlaps s.ts net plan.toml
done

start 'a link to an input in the place of the last files of a large network'
cp ../inputs/given.ts s.ts
{
    printf 'start = 0\nmax_delay = 5000000\n'
    printf '[[transmitter]]\naddress = %s\noffset = 0\ndelay = 0\n' {1..35}
    printf '[net]\nstream = "s.ts"\n'
    send 35 0 624
} >plan.toml
while read -r name earlier; do
    for file in s.ts "$earlier"; do
        ln -sf "$file" "$name"
        overlaps s.ts net plan.toml
    done
    rm tx-* net.feed
done <<'end'
tx-1.log tx-1.sym
tx-35.sym tx-34.log
tx-35.log tx-35.sym
end

start 'an output that is the file of standard output'
for word in out.sym ./out.sym /dev/stdout; do
    echo older >out.sym
    "$dtx" code ../inputs/given.ts $word >>out.sym 2>"$room/complaint"
    [[ $? == 12 && $(<out.sym) == $'older\nwrite fault' ]] || wrong "$word: holds $(head -n 2 out.sym)"
    [[ $(<"$room/complaint") == 'dtx: an output is the same file as an input,'* ]] || wrong "$word: no complaint"
done

start 'a device that is read and written is no file that is lost'
run 0 'packets 0 segments 0 loose 0' code /dev/null /dev/full
