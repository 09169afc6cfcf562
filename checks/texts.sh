#!/usr/bin/env bash
# Checks the texts of the repository, those that are not yet committed too: that it stands alone, and
# that what its rules promise of its files holds. A line for each finding; the last line is
# `texts: N passed, M failed`, where each rule counts once.

set -u
export LC_ALL=C
cd "$(dirname "${BASH_SOURCE[0]}")/.." || exit 1

if [[ ! $(git ls-files crates.txt) ]]; then
    echo 'texts: git does not tell the files of this repository'
    echo 'texts: 0 passed, 1 failed'
    exit 1
fi

# Crates that may have fewer than three wrong programs, in the gate and beside it: `dtx` and `dtx_bench` are programs, whose
# `main` has no contract that an edit could break, `dtx_lists`, `dtx_chain`, `dtx_bursts`, `dtx_network`, `dtx_calm_feed`,
# `dtx_gap_filler`, `dtx_repeated_feed`, `dtx_trial` and `dtx_symbol_laws` have lemmas and laws alone, `dtx_host` promises what
# the traits ask of files that tell nothing, and that answers are counted, and the crates of tests, whose names end so, have
# nothing that another crate stands on.
few_edits=' dtx dtx_bench dtx_host dtx_lists dtx_chain dtx_bursts dtx_network dtx_calm_feed dtx_gap_filler dtx_repeated_feed dtx_symbol_laws dtx_trial dtx_file_laws '

passed=0
failed=0

# rule WHAT FINDINGS: the rule holds where there are no findings.
rule() {
    local findings
    if [[ $2 ]]; then
        failed=$((failed + 1))
        mapfile -t findings <<<"$2"
        printf 'texts: %s\n' "${findings[@]/#/$1: }"
    else
        passed=$((passed + 1))
    fi
}

files() {
    local file
    git ls-files --cached --others --exclude-standard -- "$@" | while IFS= read -r file; do
        [[ -e $file ]] && printf '%s\n' "$file"
    done
}

# Each line of each text, after its file and number.
lines() {
    git grep --untracked -nI -e '' -- "$@"
}

crates() {
    sed -n 's/^\([a-z][a-z0-9_]*\)[^#]*:.*/\1/p' crates.txt
}

# Of Rattle's files the comments are read, since code may have short names; runs of bytes in hexadecimal
# are not read either.
names_of_papers() {
    local letter_and_number='[DRTWC][0-9]{1,2}'
    local part='(document|paper|section) [A-P]|(document|paper) 0?[0-9]|0[1-4] section|row [0-9]{1,2}'
    local file='(scope|theorems|requests|formats|readings)[.]md|guides/[a-z-]+[.]md|shared/[a-z]+'
    lines . |
        awk -F: '$1 !~ /[.](rt|antt|edit)$/ || /\/\/|--/' |
        sed -E 's/(^|[^0-9A-Za-z])[0-9A-F]{2}( [0-9A-F]{2})+/\1/g' |
        grep -E "(^|[^A-Za-z0-9_.])($letter_and_number|$part|$file)([^A-Za-z0-9_]|\$)"
}

paths_of_a_machine() {
    local folder='work|farm|tmp|root|opt|home|mnt|Users'
    lines . | grep -E "(^|[^A-Za-z0-9_.*-])/($folder)([^A-Za-z0-9_-]|\$)"
}

long_files() {
    local file
    files '*.rt' '*.antt' | while IFS= read -r file; do
        awk 'END { if (NR > 600) print FILENAME ": " NR " lines" }' "$file"
    done
}

# Columns are characters; a tactic's attribute stands on one line.
long_lines() {
    files '*.rt' '*.antt' | python3 -c '
import sys
for name in sys.stdin.read().split():
    for number, line in enumerate(open(name, encoding="utf-8"), 1):
        line = line.rstrip("\n")
        if len(line) > 120 and not line.lstrip().startswith("#[tactic"):
            print(f"{name}: {number}: {len(line)} columns")
'
}

# Lemmas that other crates cite stand in proofs/NAMELemmas.antt. `dtx_lists` has lemmas alone.
foreign_proofs() {
    local file own
    files 'crates/*/src/*' 'crates/*/specs/*' 'crates/*/proofs/*' | while IFS= read -r file; do
        own=${file#crates/}
        own=${own%%/*}
        grep -HnoE 'dtx_[a-z_]+(\.|::)proofs(\.|::)[A-Za-z0-9_]+' "$file" |
            grep -vE ":($own|dtx_lists)(\.|::)proofs|Lemmas\$"
    done
}

# A declaration without a word before it that says what it is, as `abbrev` or `record`, is a lemma.
proved_specs() {
    files 'crates/*/specs/*' | xargs -r grep -nE '^(pub )?[^ ]+ : '
}

handles() {
    cmp -s HANDLES <(echo 'Handles allowed: none.') || echo 'it is not its one line'
}

gate() {
    [[ -x .ci/run ]] || echo '.ci/run cannot be run'
    grep -qE '(^|[ ;&])(exec )?\./test$' .ci/run || echo '.ci/run does not end with ./test'
    [[ -x test ]] || echo './test cannot be run'
    grep -qE '^ *rt ci$' test || echo './test does not run the plain rt ci'
}

few_edits() {
    local crate edits
    for crate in $(crates); do
        edits=$(find "crates/$crate/must-fail" "checks/wrong_programs/$crate" -name '*.edit' 2>/dev/null | wc -l)
        ((edits >= 3)) || [[ $crate == *_tests || $few_edits == *" $crate "* ]] || echo "$crate has $edits"
    done
}

# A wrong program changes what runs: an edit of a definition or of a proof shows nothing of a contract.
edits_beside_the_code() {
    files 'crates/*/must-fail/*.edit' 'checks/wrong_programs/*/*.edit' | while IFS= read -r edit; do
        grep -Hn '^file: ' "$edit" | grep -v ':file: src/'
    done
}

# A wrong program beside those of the gate has to fit the code, in which each of its old texts stands once.
misfit_programs() {
    python3 - checks/wrong_programs/*/*.edit <<'PROGRAM'
import sys

for edit in sys.argv[1:]:
    texts, path, old = {}, '', ''
    for line in open(edit, encoding='utf-8').read().split('\n'):
        word, _, text = line.partition(': ')
        if word == 'file':
            path = f"crates/{edit.split('/')[2]}/{text}"
        elif word == 'old':
            old = text
            texts.setdefault(path, open(path, encoding='utf-8').read())
            if texts[path].count(old) != 1:
                print(f'{edit}: its old text is in {path} {texts[path].count(old)} times')
        elif word == 'new':
            texts[path] = texts[path].replace(old, text)
PROGRAM
}

# A name in capitals, as in crates/NAME, stands for any.
missing_files() {
    local text path
    files '*.md' | while IFS= read -r text; do
        grep -oE '(^|[^A-Za-z0-9_./-])(docs|examples|bench|checks|crates)/[A-Za-z0-9_./-]*[A-Za-z0-9_]' "$text" |
            sed -E 's/^[^a-z]//' | grep -vE '[A-Z]{2}|/out(/|$)' | while IFS= read -r path; do
            [[ -e $path || -e $(dirname "$text")/$path ]] || echo "$text names $path"
        done
    done
}

# At most thirty words where someone begins to read, and forty elsewhere: in the other pages, and in comments of code and
# definitions.
long_sentences() {
    local others
    mapfile -t others < <(
        files '*.md' | grep -vxE 'README[.]md|docs/guide[.]md'
        files 'crates/*/src/*.rt' 'crates/*/specs/*.antt'
    )
    checks/sentences.py 30 README.md docs/guide.md
    checks/sentences.py 40 "${others[@]}"
}

scripts() {
    local file
    files | while IFS= read -r file; do
        [[ $(head -c 2 "$file" | tr -d '\0') == '#!' ]] || continue
        [[ -x $file ]] || echo "$file cannot be run"
        case $file in
            *.py) python3 -c 'import ast, sys; ast.parse(open(sys.argv[1]).read())' "$file" 2>&1 ;;
            *) bash -n "$file" 2>&1 ;;
        esac
    done
}

rule 'a paper, or a number of one' "$(names_of_papers)"
rule 'a path of a machine' "$(paths_of_a_machine)"
rule 'a file longer than 600 lines' "$(long_files)"
rule 'a line longer than 120 columns' "$(long_lines)"
rule "a file that names another crate's proofs" "$(foreign_proofs)"
rule 'a lemma in specs/' "$(proved_specs)"
rule 'HANDLES' "$(handles)"
rule 'a README of more than 90 lines' "$(awk 'END { if (NR > 90) print "README.md: " NR " lines" }' README.md)"
rule 'the gate' "$(gate)"
rule 'fewer than three wrong programs' "$(few_edits)"
rule 'an edit of another file than the code' "$(edits_beside_the_code)"
rule 'a wrong program that does not fit' "$(misfit_programs 2>&1)"
rule 'a file that is not there' "$(missing_files)"
rule 'what a build made is committed' "$(git ls-files -- 'crates/*/out/*')"
rule 'a number of definitions' "$(checks/definitions.py --document docs/proved.md 2>&1)"
rule 'a sentence that is too long' "$(long_sentences)"
rule 'a script' "$(scripts)"
printf 'texts: %d passed, %d failed\n' "$passed" "$failed"
((failed == 0))
