#!/bin/sh
# Prints, for each point of docs/DESIGN-PASS.md, the lines of src/ that may be places of it, and how many there are.
# The argument is a commit; without one the checkout is searched. Tests are left out.
at=$1
lines() {
    name=$1
    shift
    found=$(git grep -nE "$1" $at -- 'crates/*/src/*.rt' | grep -vE '_tests/|/tests\.rt' | grep -vE "${2:-^$}")
    printf '== %s: %s\n%s\n' "$name" "$(printf '%s\n' "$found" | grep -c .)" "$found"
}
lines '1 enums' '^\s*(pub(\(crate\))? )?enum '
lines '1 numbers for kinds' 'fn (number|rank)\(|count_ranked\([a-z.]+, [0-9]+\)|is 0$|or 0 where'
lines '1 flags' ': bool\b|let mut [a-z]+ = (true|false)'
lines '2 structs, enums, traits' '^\s*(pub(\(crate\))? )?(struct|enum|trait) |^impl'
lines '3 loops' '^\s*(while|for) '
lines '3 counters' '[a-z]+ [+-]= 1;|saturating_add\(1\)'
lines '4 by hand' 'fn (same|is_same|is_[a-z_]+|number|[a-z]+_words|moved|as_number|count|read_number)\b|^impl.* (From|Display)'
lines '4 casts' ' as (u32|usize|char)\b'
lines '5 parameters' 'line: &\[u8\]|rt: &(HostRuntime|impl)|marks: &\[Mark\]|cat: &Catalogue'
lines '5 facts' 'requires|Paired|vec_capacity'
lines '6 memory' '(count|used|len|first): usize|: Vec<|\[[a-zA-Z:0-9]+; [0-9]+\]'
lines '7 switches' '(lifetime|unwritten): bool|if lifetime|self\.unwritten|Section::'
