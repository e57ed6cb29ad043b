#!/usr/bin/env bash
# Counts the places of the points of docs/DESIGN-PASS.md in a checkout: bash tools/counts.sh [its folder]
cd "${1:-.}"

# the lines of src/ that match
lines() { grep -rhE "$1" crates/*/src --include=*.rt; }
# the same in the two programs that run cases
scripts() { grep -hE "$1" crates/{cases,histories}/src/*.rt; }
code() { grep -vE 'requires|ensures|×'; }
show() { printf '| %s | %s | %s |\n' "$1" "$2" "$(wc -l)"; }

lines '^(pub )?enum ' | show 1 'enums'
lines 'if let (Verdict::Refuses|Err)\(' | show 1 'a refusal handed on by hand'
lines '^ +([A-Za-z]+::Refused|Err)\((r|_)\) =>' | show 1 'arms for a refusal'
lines 'number: [0-9]+' | show 1 'refusals by a bare number'
lines 'ByteOffset\(0\)' | show 1 'places of 0'
lines 'part\([a-z.]+, 0, 0\)|0 < .*len\(\)|len\(\) == 0' | code | show 1 'the empty part, made or tested'
lines 'known\.0|known: ByteOffset' | show 1 'a known block, 0 where none is'
scripts '^(pub )?const [A-Z_0-9]+: u64 = [0-9]+;' | show 1 'words and places as numbers in the programs'
lines 'bytes\(image\), (opening::)?numbers\(image\)|(opening::)?view\((s|image), t\)' |
    show 2 'functions that only lend an opened image another way'
lines '^ .*TableKind::(First|Second)' | show 2 'lines that go by the kind of table'
lines '^(pub )?struct Layout' | show 2 'structs named Layout'
lines "= \(b'" | show 2 'four letters as a number, by hand'
scripts 'const [A-Z_0-9]+: (\[\[u64; [35]\]; [0-9]+\])' | show 2 'tables of rows of numbers'
lines '\b(65536|1048576)\b' | code | grep -v const | show 2 'bounds of check 30 as numbers'
lines '^ +(.[a-z]+: )?(while .*\{|loop \{)' | show 3 '`while` and `loop`'
lines '^ +(.[a-z]+: )?for ' | show 3 '`for`'
lines '[-+]= (1|16|32);' | show 3 'lines that count by hand'
lines '^ *(pub )?fn \w+.*-> bool' | show 4 'functions to bool'
lines 'return (true|false);' | show 4 '`return true`, `return false`'
lines '^#\[derive\(Clone, Copy\)\]' | show 4 'derives of Clone and Copy alone'
lines '[a-z]\.0 (==|!=|<|<=) |(==|!=|<|<=) [a-z]+\.0\b' | code | show 4 'comparisons through `.0`'
lines '\bas (u64|usize|u8|u16|u32|i64)\b' | show 4 'lines with `as`'
lines '^ +let [a-z]+ = [a-z]+\.[a-z]+;' | show 4 'fields taken out by a `let`'
lines 'opening [^ ]+ ≡ (accepted|Ok) \((contents|held)' | show 5 'clauses: opening answered so'
lines 'Pair child.now parent.now' | show 5 'clauses: a pair'
lines 'requires.*Checked ' | show 5 'clauses: the sectors are checked'
lines 'at ≤ length out.old' | show 5 'clauses: a place in the text'
lines '^ *(pub )?fn [^(]*\([^)]*\bs: &[^)]*t: Opened' | show 5 'a slice, and what opening found of it'
lines '^ +mediaType: u32,|mediaType: u32\)' | show 5 'the six values of a new header as parameters'
lines 'let (mut )?\w+ = \[[0-9a-zx]+; [0-9]+\]' | show 6 'local arrays'
lines '\[\.\.[a-z]+\]|\[0\.\.[a-z]+\]|part\((buf|buffer|image|&?input), 0, ' | show 6 'front parts of a buffer'
lines '\b(Vec|String|Box|BTreeMap|HashMap)\b' | show 6 'types with a heap'
scripts '(word|row\[0\]) (==|<|<=) [A-Z]+' | show 7 'tests of a word'
lines '^ +match (kind|scope|self\.kind|self\.found\.kind)' | show 7 'matches on a kind or a scope'
lines '::all\(&rt' | show 7 'calls of a list of cases'
tracked() { git ls-files 'crates/*' | grep -E "$1"; }
tracked '/proofs/.*/Answers.antt$' | show 8 'files of answers'
tracked '/proofs/.*/(Answers|Invariants).antt$' | xargs cat | show 8 'lines of answers and invariants'
tracked '/proofs/.*.antt$' | grep -vE '/(Answers|Invariants).antt$' | xargs cat | show 8 'lines of lemmas'
tracked '/src/.*.rt$' | xargs cat | show 8 'lines of code'
