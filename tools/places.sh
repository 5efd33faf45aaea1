#!/bin/sh
# Counts the lines of src/ at a commit (default: HEAD) that may be a place of a point of docs/DESIGN-PASS.md.
c=${1:-HEAD}
n() {
    point=$1
    shift
    echo "$point: $(git grep -nE "$@" "$c" -- 'crates/*/src/*.rt' | grep -vE ':\s*//[/!]? ' | wc -l)"
}
n '1 errors handed on, numbers for kinds' -e 'unreachable!?\(\)|Err\([a-z_]+\) => |from_number|\b(code|number|which): u8|words\[[0-9]\]'
echo "2 twins: $(git grep -nE -e '// The work of |fn (digit|bytes|number|place|group|layer|byte_order|bit_order|with_bytes|with_bits|zero|fill|put_zeros|column|kinds|print_refusal|print_decline|[a-z]+_by|whole_blocks|on_blocks|value_of|number_of)[(<]|struct (SetAt|CodeAt|Number|Named) |k >= [a-z.]*shape(\(\))?\.count' "$c" -- 'crates/*/src/*.rt' | wc -l)"
n '3 loops that count' -e 'for [a-z_]+ in [^{]*\.\.|while |^ +loop \{'
n '4 written by hand' -e 'derive\(Clone, Copy\)|fn (name|from_number|number|same_noted|lock_byte|digit|refused_at|told_at|on_blocks|whole_blocks|byte_or_zero|part)[(<]'
echo "5 requirements that stand three times or more: $(git grep -hE '^\s+requires' "$c" -- 'crates/*/src/*.rt' | sed 's/^ *requires [a-z_]* *//' | sort | uniq -c | awk '$1 >= 3 { s += $1 } END { print s + 0 }'); lines with what travels together: $(git grep -nE '^ +(locks|scratch|kind|named|flags): (&|Kind|usize)' "$c" -- 'crates/*/src/*.rt' | wc -l)"
n '6 lengths beside, parallel arrays' -e '_(len|at): usize|: \[.*; [0-9A-Z]+\],$|&table\['
n '7 switches on a step' -e 'match which|which: u8|for which'
echo "8 proofs: $(git ls-tree -r --name-only "$c" crates | grep -c '/Answers.antt$') answers, $(git grep -c '' "$c" -- 'crates/*/proofs/*/Answers.antt' | awk -F: '{ s += $NF } END { print s }') lines"
