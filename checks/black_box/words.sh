# Words that are refused.

# is_usage TITLE WORD..: the words fit no command.
is_usage() {
    start "usage: $1"
    shift
    run 2 "$usage" "$@"
    leaves_nothing
}

is_usage 'no words'
is_usage 'a command alone' adapt
is_usage 'a word too few' adapt "$plan" ../inputs/given.ts
is_usage 'a word too many' adapt "$plan" ../inputs/given.ts out.ts more
is_usage 'an empty plan' adapt '' ../inputs/given.ts out.ts
is_usage 'an empty input' adapt "$plan" '' out.ts
is_usage 'an empty output' adapt "$plan" ../inputs/given.ts ''
is_usage 'an empty command' '' plan ../inputs/given.ts out.ts
is_usage 'a capital letter' Adapt plan ../inputs/given.ts out.ts
is_usage 'a blank after the command' 'adapt ' plan ../inputs/given.ts out.ts
is_usage 'a part of the command' adap plan ../inputs/given.ts out.ts
is_usage 'an unknown command' copy plan ../inputs/given.ts out.ts
is_usage '`make` alone' make
is_usage '`make` with a word too few' make 1 4
is_usage '`make` with a word too many' make 1 4 out.ts more
is_usage '`make` with an empty output' make 1 4 ''
is_usage 'a seed beyond 64 bits' make 18446744073709551616 4 out.ts
is_usage 'a seed that is 1 modulo 2^64' make 18446744073709551617 4 out.ts
is_usage 'a packet too many' make 1 624000001 out.ts
while read -r number; do
    is_usage "the seed '$number'" make "$number" 4 out.ts
    is_usage "the count '$number'" make 1 "$number" out.ts
    is_usage "the address '$number'" excite ../inputs/given.ts "$number" 0 out.sym out.log
    is_usage "the delay '$number'" excite ../inputs/given.ts 7 "$number" out.sym out.log
    is_usage "the scale '$number'" acquire "$number" ../inputs/given.ts out.sym
    is_usage "the scale '$number' of \`refine\`" refine "$number" 1 ../inputs/given.ts out.sym
    is_usage "the rounds '$number'" refine 1 "$number" ../inputs/given.ts out.sym
done <<'end'

01
00
+1
-1
-0
1.0
1e3
0x10
1_000
seven
1 1
٤
99999999999999999999999999999999999999999999999999999999999999999999999999999999
end
is_usage 'a number behind a blank' make ' 1' 4 out.ts
is_usage 'a number before a line feed' make 1 $'4\n' out.ts
is_usage '--help' --help
is_usage '-h' -h
is_usage '--version' --version
is_usage '`excite` alone' excite
is_usage '`excite` with a word too few' excite ../inputs/given.ts 7 0 out.sym
is_usage '`excite` with a word too many' excite ../inputs/given.ts 7 0 out.sym out.log more
is_usage '`excite` with an empty feed' excite '' 7 0 out.sym out.log
is_usage '`excite` with empty symbols' excite ../inputs/given.ts 7 0 '' out.log
is_usage '`excite` with an empty log' excite ../inputs/given.ts 7 0 out.sym ''
is_usage 'an address beyond 16 bits' excite ../inputs/given.ts 65536 0 out.sym out.log
is_usage 'a delay beyond 32 bits' excite ../inputs/given.ts 7 4294967296 out.sym out.log
is_usage '`repeat` with a word too few' repeat ../inputs/given.ts 7 0 out.sym
is_usage '`repeat` with a word too many' repeat ../inputs/given.ts 7 0 out.sym out.log more
is_usage 'an address of a repeater beyond 16 bits' repeat ../inputs/given.ts 65536 0 out.sym out.log
is_usage 'a scale below 1' acquire 0 ../inputs/given.ts out.sym
is_usage 'a scale beyond 18' acquire 19 ../inputs/given.ts out.sym
is_usage '`refine` without its rounds' refine 1 ../inputs/given.ts out.sym
for number in 0 19 1.5; do
    is_usage "the scale $number of \`refine\`" refine $number 1 ../inputs/given.ts out.sym
done
for number in 0 33 1.5; do
    is_usage "$number rounds" refine 1 $number ../inputs/given.ts out.sym
done
is_usage '`level` alone' level
is_usage '`level` with a word too few' level ../inputs/given.ts out.sym
is_usage '`level` with a word too many' level ../inputs/given.ts out.sym out.log more
is_usage '`level` with an empty input' level '' out.sym out.log
is_usage '`level` with empty symbols' level ../inputs/given.ts '' out.log
is_usage '`level` with an empty log' level ../inputs/given.ts out.sym ''
is_usage '`net` alone' net
is_usage '`net` with a word too many' net plan more
is_usage '`net` with an empty plan' net ''
is_usage '`hurt` alone' hurt
is_usage '`hurt` with a word too few' hurt ../inputs/given.ts changes
is_usage '`hurt` with a word too many' hurt ../inputs/given.ts changes out more
is_usage '`hurt` with an empty input' hurt '' changes out
is_usage '`hurt` with empty changes' hurt ../inputs/given.ts '' out
is_usage '`hurt` with an empty output' hurt ../inputs/given.ts changes ''
is_usage '`dvb` alone' dvb
is_usage '`dvb` without its second word' dvb ../inputs/given.ts out
is_usage '`dvb` with an unknown second word' dvb receive ../inputs/given.ts out
is_usage '`dvb` with an empty second word' dvb '' ../inputs/given.ts out
is_usage '`dvb` with its words in one' 'dvb code' ../inputs/given.ts out
is_usage 'the second word of `dvb` first' read ../inputs/given.ts out
for verb in code read; do
    is_usage "\`dvb $verb\` with a capital letter" dvb ${verb^} ../inputs/given.ts out
done

# Commands of an input and an output.
while read -ra words; do
    is_usage "\`${words[*]}\` alone" "${words[@]}"
    is_usage "\`${words[*]}\` with a word too few" "${words[@]}" ../inputs/given.ts
    is_usage "\`${words[*]}\` with a word too many" "${words[@]}" ../inputs/given.ts out more
    is_usage "\`${words[*]}\` with an empty input" "${words[@]}" '' out
    is_usage "\`${words[*]}\` with an empty output" "${words[@]}" ../inputs/given.ts ''
done <<'end'
code
receive
place
soft
mend
watch
acquire 1
refine 8 4
dvb code
dvb read
end

while read -r shows given_plan input output named; do
    start "equal names: $shows"
    run 3 "same $named" adapt "$given_plan" "$input" "$output"
    leaves_nothing
done <<'end'
plan_and_input ../inputs/given.ts ../inputs/given.ts out.ts ../inputs/given.ts
plan_and_output out.ts ../inputs/given.ts out.ts out.ts
input_and_output plan ../inputs/given.ts ../inputs/given.ts ../inputs/given.ts
all_three ../inputs/given.ts ../inputs/given.ts ../inputs/given.ts ../inputs/given.ts
two_that_are_missing plan missing missing missing
end

while read -r shows feed output log named; do
    start "equal names of \`excite\`: $shows"
    run 3 "same $named" excite "$feed" 7 0 "$output" "$log"
    leaves_nothing
done <<'end'
feed_and_symbols ../inputs/given.ts ../inputs/given.ts out.log ../inputs/given.ts
feed_and_log ../inputs/given.ts out.sym ../inputs/given.ts ../inputs/given.ts
symbols_and_log ../inputs/given.ts out.sym out.sym out.sym
two_that_are_missing missing missing out.log missing
end

start 'equal names of `repeat`'
run 3 'same ../inputs/given.ts' repeat ../inputs/given.ts 7 0 out.sym ../inputs/given.ts
leaves_nothing

while read -r shows input output log named; do
    start "equal names of \`level\`: $shows"
    run 3 "same $named" level "$input" "$output" "$log"
    leaves_nothing
done <<'end'
input_and_symbols ../inputs/given.ts ../inputs/given.ts out.log ../inputs/given.ts
input_and_log ../inputs/given.ts out.sym ../inputs/given.ts ../inputs/given.ts
symbols_and_log ../inputs/given.ts out.sym out.sym out.sym
two_that_are_missing missing missing out.log missing
end

start 'equal names of `receive`'
run 3 'same ../inputs/given.ts' receive ../inputs/given.ts ../inputs/given.ts
leaves_nothing

start 'equal names of `code`'
run 3 'same ../inputs/given.ts' code ../inputs/given.ts ../inputs/given.ts
leaves_nothing

start 'a word that is not UTF-8'
run 1 '' adapt "$plan" ../inputs/given.ts $'out\xff.ts'
leaves_nothing
run 1 '' $'\xc3'
leaves_nothing
