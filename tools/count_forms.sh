#!/bin/sh
# The lines of src/ (and for point 8 of proofs/) that may hold one of the forms of docs/DESIGN-PASS.md, counted point by
# point at a commit. Which of them are places is judged by reading. Run at the top: sh tools/count_forms.sh [COMMIT [POINT]]
# With a point it prints that point's lines.
commit=${1:-HEAD}
point=$2

lines() {
    git grep -nE "$2" "$commit" -- 'crates/*/src/*.rt' | grep -vE '^[^:]*:[^:]*:[0-9]+:[[:space:]]*//' > /tmp/count_forms.$$
    if [ "$point" = "$1" ]; then cat /tmp/count_forms.$$; fi
    if [ -z "$point" ]; then echo "point $1: $(wc -l < /tmp/count_forms.$$) lines"; fi
    rm -f /tmp/count_forms.$$
}

# own enums, flags, numbers for kinds and refusals, results taken apart and made again
lines 1 '\benum |: bool\b|-> u8|: u8,$|\.number\(\)|Err\(_\) =>|Err\(AllocError\)'
# functions, types and values that may be twins: heads of functions and of structs
lines 2 '\bfn [a-z_]+|\bstruct |\bconst [A-Z]|let blank'
# loops
lines 3 '\bfor .* in |\bwhile |\bloop \{'
# equality, order, copying, conversion and printing by hand, and values written out that a default has
lines 4 '^impl.* (From<|TryFrom<|PartialEq|PartialOrd|Ord |Clone|Copy|Default|Display|Debug|Drop )|format!|write!|\.0 (as [a-z0-9]+ )?(<|<=|>|>=|==|!=) |\.0\.(min|max)\(|(BackRank|ForeRank|Strand)\(0\),$|^ +[a-z_]+: 0,$'
# facts in clauses of boards and of writers, and parameters that travel together
lines 5 '\bok (self|board)|[AB]\.ok|Whole|≤ length buffer|row: BackRank, column: ForeRank|buffer: &mut \[u8\], place: usize|pairs: &\[Pair\]'
# tables, lists and counts in structs and results
lines 6 '(: |\()(&.a mut \[|Vec<|&.a \[)|_count: u|filled: usize|Option<usize>'
# what chooses a step: traits with one call, calls as values, closures
lines 7 '\btrait |\bdyn |impl Fn|: Fn\(|^impl.* Change<|match call \{'

if [ -z "$point" ]; then
    answers=$(git grep -hE '^(pub )?[A-Za-z_0-9-]+ :( goal|$)' "$commit" -- ':(glob)crates/*/proofs/**/Answers.antt' | wc -l)
    lemmas=$(git grep -hE '^(abbrev |unfoldable )?(pub )?[A-Za-z_0-9-]+ :' "$commit" -- ':(glob)crates/*/proofs/*.antt' | wc -l)
    text=$(git grep -hc '' "$commit" -- ':(glob)crates/*/proofs/**' | awk '{n += $1} END {print n}')
    echo "point 8: $answers answers, $lemmas lemmas, $text lines of proofs"
fi
