#!/bin/sh
# Counts the places that docs/DESIGN-PASS.md speaks of, in the sources at a commit (or in the working tree, where none is given).
#   tools/places.sh [COMMIT]
# Tests are left out. Each line: the point, what was looked for, how many lines have it.
at=$1

lines() {
    git grep -hE "$1" $at -- 'crates/*/src/*' ':!crates/*_tests/*' ':!*/tests.rt'
}

count() {
    printf '%s  %-62s %4d\n' "$1" "$2" "$(lines "$3" | wc -l)"
}

count 1 'functions that answer a number where there is nothing to say' '\) -> u8$'
count 1 'a number or a flag in the place of nothing (None => 0, false)' 'None => (0|false)'
count 1 'a flag in a struct or among the parameters' '^ +(pub(\(crate\))? )?[a-z_]+: bool,$'
count 1 'a number for a kind or a refusal, by hand' 'Kind::of\(|\.word\(\)|number: u32'
count 1 'own enums' '^(pub(\(crate\))? )?enum '
count 2 'constants' '^(pub(\(crate\))? )?const '
count 2 'the name of a record, built by hand' 'symbol: [a-z.]*symbol,$'
count 2 'what a kind is asked, in functions of their own' '^(pub(\(crate\))? )?fn [a-z_]+\((node: Record|kind: Kind)\) -> bool'
count 3 'loops by while or loop' "^ *('[a-z]+: )?(while|loop) "
count 3 'loops over a range' 'for [a-z_]+ in .*\.\.'
count 3 'a count by hand' ' \+= 1;| -= 1;'
count 4 'kinds compared by a function' '\.is\(Kind'
count 4 'an equality of the repository'"'"'s own' 'is_same'
count 4 'a match whose arms hand on what was matched' 'Err\((e|error|fault|edge|problem)\) => (Err|return Err)'
count 5 'that a chain ends, asked of the caller' 'requires whole|requires \{ Whole'
count 5 'how deep it nests, asked of the caller' 'requires deep'
count 5 'an outcome of the book, case by case' 'MatchResult result .*(fine|refused)'
count 5 'what stays of a table, clause by clause' 'ensures (names_|edges_)?behind'
count 5 'parameters of eight and more' '^    notes: &mut Notes,$'
count 6 'a length or a count beside a slice' '^    (count|len): usize,$'
count 7 'a switch on which function to run' 'Sort::[A-Z][a-z]+ => '
