# The launcher: which program it runs, when it looks anew, and what it says where none can be run. It stands in a small repository of its own,
# over a kit of its own that only notes what it is asked for. Its tools are Bash and the core utilities, `sed`, `grep` and GNU `find`.

repository=$room/repository
tools=$room/tools
kit=$room/kit
mkdir "$tools" "$kit" "$kit/bin" "$kit/path"
for name in awk bash cat chmod cmp comm cp cut dirname env find flock grep head mkdir mktemp mv nproc readlink rm sed sha256sum sleep sort stat \
    tail touch uname wc xargs; do
    ! path=$(command -v $name) || ln -s "$path" "$tools/$name"
done
# Each checksum that is reckoned leaves a line.
rm "$tools/sha256sum"
printf '#!%s\necho sum >>%q\nexec %q "$@"\n' "$BASH" "$room/reckoned" "$(command -v sha256sum)" >"$tools/sha256sum"
printf '#!%s\n[[ $1 == doc ]] && echo %q || echo kit of the black box\n' "$BASH" "$kit/page.md" >"$kit/path/rt"
# The kit proves what does not hold the word `false`, and links a program that prints `built anew`.
cat >"$kit/bin/rattle" <<'end'
#!/usr/bin/env bash
echo "rattle $1 $3" >>"${BASH_SOURCE[0]%/*/*}/asked"
! grep -r false src || exit 1
while [[ $1 != -o ]]; do shift; done
mkdir -p "$2"
end
printf '#!%s\nwhile [[ $1 != -o ]]; do shift; done\nprintf "#!/usr/bin/env bash\\necho built anew\\n" >"$2"\nchmod 755 "$2"\n' "$BASH" >"$kit/bin/rattle-link"
chmod 755 "$tools/sha256sum" "$kit/path/rt" "$kit"/bin/*
unset path

# Makes the repository, with the program that is tried as its released one, and nothing built.
released_alone() {
    rm -rf "$repository" "$room/reckoned" "$kit/asked"
    mkdir -p "$repository"/{release,crates/{dtx/{src,out},low/{src,specs,proofs},aside/src}}
    printf '%s\n' 'low:' 'aside: low' 'dtx: low' >"$repository/crates.txt"
    printf '%s\n' 'fn main() {}' >"$repository/crates/dtx/src/main.rt"
    printf '%s\n' 'pub fn low() {}' | tee "$repository"/crates/{low,aside}/src/lib.rt >"$repository/crates/low/specs/Lib.antt"
    cp "$repository/crates/low/specs/Lib.antt" "$repository/crates/low/proofs/Low.antt"
    cp "$top/dtx" "$top/build" "$repository"
    cp "$top/release/refresh" "$repository/release"
    sleep 0.02
    cp "$binary" "$repository/crates/dtx/out/dtx"
    PATH=$tools:$kit/path "$repository/release/refresh" || wrong 'release/refresh fails'
    rm -r "$repository/crates/dtx/out" "$room/reckoned"
    # So that all of it is older than what a start notes.
    sleep 0.02
}

# launches STATUS LINE COMPLAINT WORD..: the command of these words, `dtx` where there is none, ends with the status, and prints just these lines.
launches() {
    local status=$1 line=$2 complaint=$3
    shift 3
    (($#)) || set -- "$repository/dtx"
    PATH=$launch_path "$@" >"$room/said" 2>"$room/complaint" </dev/null
    status=$((status - $?))
    ((status == 0)) || wrong "another status, by $status"
    [[ $(cat "$room/said") == "$line" ]] || wrong "printed '$(cat "$room/said")'"
    [[ $(cat "$room/complaint") == "$complaint" ]] || wrong "on standard error: $(cat "$room/complaint")"
}

# Without a kit it asks for one; `needs WHY` is what it says then.
needs() {
    launches 1 '' "dtx: $1. To build the program, put rt, the command of the Rattle kit, on PATH"
}

reckoned() {
    [[ ! -e $room/reckoned ]] || wc -l <"$room/reckoned"
}

launch_path=$tools
runs=(2 "$usage" '')

start 'a fresh clone runs the released program, without a kit, and reckons checksums once'
released_alone
launches "${runs[@]}"
sums_before=$(reckoned)
[[ $sums_before ]] || wrong 'no checksum was reckoned'
for turn in 1 2 3; do
    launches "${runs[@]}"
done
[[ $(reckoned) == "$sums_before" ]] || wrong 'a later start reckons checksums'
echo >>"$repository/crates/aside/src/lib.rt"
launches "${runs[@]}"
[[ $(reckoned) == "$sums_before" ]] || wrong 'a crate that dtx does not stand on is looked at'

start 'a source that is changed, added, removed or replaced by an older one is seen, and so is that it is as it was'
released_alone
launches "${runs[@]}"
cp -a "$repository/crates/low" low
echo >>"$repository/crates/low/src/lib.rt"
needs 'release/dtx was built from other sources (crates/low/src/lib.rt differs)'
cp -a low/src/lib.rt "$repository/crates/low/src/lib.rt"
launches "${runs[@]}"
: >"$repository/crates/low/src/more.rt"
needs 'release/dtx was built from other sources (crates/low/src/more.rt differs)'
rm "$repository/crates/low/src/more.rt"
launches "${runs[@]}"
rm "$repository/crates/low/src/lib.rt"
needs 'release/dtx was built from other sources (crates/low/src/lib.rt differs)'
cp -a low/src/lib.rt other.rt
echo >>other.rt
touch -d '2001-01-01' other.rt
mv other.rt "$repository/crates/low/src/lib.rt"
needs 'release/dtx was built from other sources (crates/low/src/lib.rt differs)'
rm -r "$repository/crates/low"
mv low "$repository/crates/low"
launches "${runs[@]}"
echo 'low: # the lowest' >>"$repository/crates.txt"
needs 'release/dtx was built from other sources (crates.txt differs)'

start 'a proof that is changed is seen once the choice is a minute old'
released_alone
launches "${runs[@]}"
echo >>"$repository/crates/low/proofs/Low.antt"
launches "${runs[@]}"
touch -d '61 seconds ago' "$repository"/crates/dtx/out/launch/*
needs 'release/dtx was built from other sources (crates/low/proofs/Low.antt differs)'

start 'a choice whose time is still to come is made anew'
released_alone
launches "${runs[@]}"
touch -d '1 hour' "$repository"/crates/dtx/out/launch/*
echo >>"$repository/crates/low/src/lib.rt"
needs 'release/dtx was built from other sources (crates/low/src/lib.rt differs)'

start 'a released program that is damaged, or not there'
released_alone
launches "${runs[@]}"
printf x >>"$repository/release/dtx"
needs 'release/dtx is damaged: its checksum is not the one in release/sources'
rm "$repository/release/dtx"
needs 'release/dtx or release/sources is missing'
released_alone
rm "$repository/release/sources"
needs 'release/dtx or release/sources is missing'
rm -r "$repository/release"
needs 'release/dtx or release/sources is missing'

start 'a released program that is for another machine'
released_alone
mkdir elsewhere
printf '#!%s\necho Linux aarch64\n' "$BASH" >elsewhere/uname
chmod 755 elsewhere/uname
launch_path=$PWD/elsewhere:$tools
needs 'release/dtx is not for this machine (Linux aarch64)'
launch_path=$tools

start 'what was built here is run, until a source is newer'
released_alone
mkdir -p "$repository/crates/dtx/out"
printf '#!%s\necho "built here: $*"\n' "$BASH" >"$repository/crates/dtx/out/dtx"
chmod 755 "$repository/crates/dtx/out/dtx"
launches 0 'built here: one two  words' '' "$repository/dtx" one 'two  words'
touch "$repository/crates/low/src/lib.rt"
launches "${runs[@]}"
sleep 0.02
touch "$repository/crates/dtx/out/dtx"
launches 0 'built here: ' ''
rm "$repository/crates/dtx/out/dtx"
launches "${runs[@]}"

start 'links to it, in other folders and on PATH'
released_alone
mkdir bin deeper
ln -s "$repository/dtx" bin/dtx
ln -s ../bin/dtx deeper/other
for turn in 1 2; do
    launches "${runs[@]}" bin/dtx
    launches "${runs[@]}" ./bin/dtx
    launches "${runs[@]}" "$PWD/deeper/other"
    launch_path=$PWD/bin:$tools
    launches "${runs[@]}" dtx
    launch_path=$tools
    launches "${runs[@]}" bash -c 'cd "$1" && bash dtx' - "$repository"
done

start 'starts at the same time'
released_alone
for turn in {1..12}; do
    PATH=$tools "$repository/dtx" </dev/null >"said-$turn" 2>&1 &
done
wait
for turn in {1..12}; do
    [[ $(cat "said-$turn") == "$usage" ]] || wrong "one printed $(cat "said-$turn")"
done
found=("$repository"/crates/dtx/out/launch/*)
((${#found[@]} == 1)) || wrong "left ${found[*]}"
launches "${runs[@]}"

start 'a folder that may not be written'
released_alone
chmod -R a+rX "$kit" "$tools" "$repository"
chmod a-w "$repository" "$repository"/crates/dtx
as_other=()
((EUID)) || as_other=(setpriv --reuid=65534 --regid=65534 --clear-groups)
: >"$room/reckoned"
chmod 666 "$room/reckoned"
if ((EUID)) || command -v setpriv >/dev/null; then
    ((EUID)) || cp "$(command -v setpriv)" "$tools/setpriv"
    for turn in 1 2; do
        launches "${runs[@]}" "${as_other[@]}" "$repository/dtx"
    done
    [[ ! -e $repository/crates/dtx/out ]] || wrong 'something was written'
else
    left_out 'the launcher in a folder that may not be written' util-linux
fi
chmod u+w "$repository" "$repository"/crates/dtx

start 'where neither can be run, the kit proves and builds just what the program stands on, once'
released_alone
rm "$repository/release/dtx"
launch_path=$tools:$kit/path
PATH=$launch_path "$repository/dtx" >"$room/said" 2>"$room/complaint" </dev/null || wrong "ended with $?"
[[ $(cat "$room/said") == 'built anew' ]] || wrong "printed '$(cat "$room/said")'"
takes=$(sed -n "s/^takes='\(.*\)'\$/\1/p" "$top/build")
[[ $takes && $(head -n 1 "$room/complaint") == "dtx: release/dtx or release/sources is missing. Proving and building the program takes $takes from nothing, \
less after a change (log: $repository/crates/dtx/out/build.log)" ]] || wrong "on standard error: $(cat "$room/complaint")"
[[ $(cat "$kit/asked") == $'rattle build low\nrattle build dtx' ]] || wrong "the kit was asked for $(cat "$kit/asked")"
launches 0 'built anew' ''
[[ $(wc -l <"$kit/asked") == 2 ]] || wrong 'the kit was asked again'

start 'a change is proved and built, but not what stands below it'
echo >>"$repository/crates/dtx/src/main.rt"
PATH=$launch_path "$repository/dtx" >"$room/said" 2>"$room/complaint" </dev/null || wrong "ended with $?"
[[ $(tail -n +3 "$kit/asked") == 'rattle build dtx' ]] || wrong "the kit was asked for $(tail -n +3 "$kit/asked")"

start 'a proof that fails is shown, and the next start tries it again'
echo 'false' >>"$repository/crates/low/src/lib.rt"
for turn in 1 2; do
    PATH=$launch_path "$repository/dtx" >"$room/said" 2>"$room/complaint" </dev/null
    [[ $? == 1 && ! -s $room/said ]] || wrong 'another status than 1'
    [[ $(tail -n 2 "$room/complaint") == "src/lib.rt:false
dtx: building low failed; the lines above are the end of $repository/crates/dtx/out/build.log" ]] || wrong "on standard error: $(cat "$room/complaint")"
done
rm -rf "$repository"
