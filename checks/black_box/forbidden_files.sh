# Files that a user may not use.

# Root may use all, so the program then runs as nobody, from a copy where nobody reaches it.
if ((EUID == 0)); then
    cp "$binary" "$room/program"
    chmod 755 "$room/program"
    usual=(setpriv --reuid=65534 --regid=65534 --clear-groups "$room/program")
fi
if [[ $("${usual[@]}" 2>/dev/null) == "$usage" ]]; then
    start 'an output in a folder that may not be written'
    mkdir shut
    chmod 555 shut
    run 12 'write fault' adapt "$plan" ../inputs/given.ts shut/out.ts
    leaves shut

    start 'an output that may not be written stays as it was'
    cp ../inputs/long.ts out.ts
    chmod 444 out.ts
    run 12 'write fault' adapt "$plan" ../inputs/given.ts out.ts
    cmp -s ../inputs/long.ts out.ts || wrong 'out.ts was changed'

    start 'an input that may not be read'
    chmod 777 .
    cp ../inputs/given.ts in.ts
    chmod 000 in.ts
    run 11 'read fault' adapt "$plan" in.ts out.ts
    leaves in.ts

    start 'a log of a transmitter that may not be written stays as it was'
    chmod 777 .
    stream 60 s.ts
    { network s.ts && send 7 0 60; } >plan.toml
    older tx-7.log
    chmod 444 tx-7.log
    run 12 'write fault' net plan.toml
    keeps_older tx-7.log
    are_empty tx-7.sym
    leaves s.ts plan.toml net.feed tx-7.sym tx-7.log

    start 'a network in a folder that may not be written'
    stream 60 s.ts
    { network s.ts && send 7 0 60; } >plan.toml
    chmod 555 .
    run 12 'write fault' net plan.toml
    leaves s.ts plan.toml
    chmod 755 .

    start 'changes that may not be read'
    chmod 777 .
    : >changes.toml
    chmod 000 changes.toml
    run 11 'read fault' hurt ../inputs/given.ts changes.toml out.ts
    leaves changes.toml
else
    left_out 'files that another user may not use, since root could not become nobody' 'util-linux, or run it as another user'
fi

