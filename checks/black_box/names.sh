# Names of files.

given 3 0
while read -r name; do
    start "the name '$name', of an input, of an output and of what is missing"
    cp ../inputs/given.ts "./$name"
    run 0 'packets 3 filled 0 loose 0' adapt "$plan" "$name" out.ts
    holds out.ts 3
    run 0 'packets 3 filled 0 loose 0' adapt "$plan" ../inputs/given.ts "$name"
    holds "./$name" 3
    rm -f "./$name" out.ts
    run 4 "absent $name" adapt "$plan" "$name" out.ts
    leaves_nothing
    run 4 "absent $name" code "$name" out.sym
    leaves_nothing
    run 4 "absent $name" hurt ../inputs/given.ts "$name" out
    leaves_nothing
    run 4 "absent $name" level "$name" out.sym out.log
    leaves_nothing
    run 10 'no sync' level ../inputs/given.ts out.sym "$name"
    leaves out.sym "$name"
    rm -f out.sym "./$name"
    run 0 'packets 0' make 1 0 "$name"
    leaves "$name"
done <<'end'
plain.ts
with two blanks.ts
Übertragung-東京-αβγ.ts
-x
--help
adapt
a*b?[c]$d'e"f\g
end

start 'an input and an output by links'
ln -s ../inputs/given.ts in.ts
ln -s target.ts out.ts
run 0 'packets 3 filled 0 loose 0' adapt "$plan" in.ts out.ts
holds target.ts 3
[[ -L in.ts && -L out.ts ]] || wrong 'a link was replaced'
leaves in.ts out.ts target.ts

start 'names from another folder than that of the program, and whole paths'
mkdir below
cd below || exit 1
run 0 'packets 3 filled 0 loose 0' adapt "../$plan" ../../inputs/given.ts ../out.ts
run 0 'packets 3 filled 0 loose 0' adapt "../$plan" "$inputs/given.ts" "$folder/whole.ts"
cd ..
holds out.ts 3
holds whole.ts 3
leaves below out.ts whole.ts

start 'the launcher by a link'
ln -s "$dtx" linked
program=(./linked)
run 0 'packets 3 filled 0 loose 0' adapt "$plan" ../inputs/given.ts out.ts
holds out.ts 3
