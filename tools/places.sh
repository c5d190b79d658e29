#!/usr/bin/env bash
# Lists the lines where the design pass looks for places, point by point, at a commit:
#     tools/places.sh COMMIT
# Each point's list is wider than its places: the page docs/DESIGN-PASS.md says which lines are.
cd "$(dirname "$0")/.." || exit 2
commit=${1:-HEAD}

# Lines of src/ that match a pattern, as FILE:LINE:TEXT.
in_src() {
    git grep -nE "$1" "$commit" -- ':(glob)crates/*/src/**' | sed "s/^$commit://"
}

point() {
    printf '== %s\n' "$1"
}

point '1 enums'
in_src '^\s*(pub(\([a-z]+\))? )?enum '
point '1 flags among fields'
in_src '^\s+(pub )?[a-z_]+: (bool|\[bool)'
point '1 numbers for kinds'
in_src '\bnumber: u8|match number|for number in'
point '1 nested or flagged results'
in_src 'Result<Result|Result<\(\), Refusal>|\((bool|usize), '
point '2 functions of one name in two files'
git grep -hoE '\bfn [a-z_0-9]+' "$commit" -- ':(glob)crates/*/src/**' | sort | uniq -c | awk '$1 > 1' | sort -rn
point '3 loops'
in_src '^\s*(for|while|loop)\b'
point '4 conversions and comparisons by a method'
in_src '\bfn (same|same_bytes|equals|number|with_number|from_slice|from_number|of_number|new|parse|payload|bits|to_signed|to_unsigned|letters|letter|symbol|phrase|place_name|decode|encode)\b'
point '4 printing by hand'
in_src 'Formatter|fn print_'
point '5 premises that repeat (clauses)'
for fact in 'Agrees F.Family.meaning s h' 'Holds F.Family.meaning s h' 'Linked F.Family.meaning s a' 'Tells h self' \
    'Agrees (families N.Family.meaning n' 'Holds (families N.Family.meaning n' 'Linked (families N.Family.meaning n' \
    'Ran (families N.Family.meaning n' 'lawful_at (N.Family.meaning.lawful name.now)' 'fields.area < 2 ^ 58' \
    'FitLayout self' 'Cuttable self'; do
    printf '%4d clauses: %s\n' "$(git grep -F "$fact" "$commit" -- ':(glob)crates/*/src/**' | grep -c .)" "$fact"
done
point '5 conditions'
in_src '^\s+requires'
point '6 arrays, and lengths beside them'
in_src '\[[A-Za-z0-9<>_ ]+; [0-9]+\]|len: usize'
point '7 closures, function pointers, dyn'
in_src '\bdyn\b|\bfn\(|impl Fn|: Fn(Once|Mut)?\('
point '7 matches on a step'
in_src 'match self\.(turn|state)|match fade'
point '8 answers and invariants, and lines of proofs, by crate'
for crate in $(git ls-tree --name-only "$commit" crates/); do
    files=$(git ls-tree -r --name-only "$commit" "$crate/proofs" 2>/dev/null)
    [ -n "$files" ] || continue
    lines=$(for file in $files; do git show "$commit:$file"; done | wc -l)
    answers=$(for file in $(printf '%s\n' "$files" | grep -E '(Answers|Invariants)\.antt$'); do git show "$commit:$file"; done | grep -cE '^(abbrev )?pub ')
    printf '%s: %d answers and invariants, %d lines\n' "${crate#crates/}" "$answers" "$lines"
done
