#!/bin/sh
# The places in src/ that docs/DESIGN-PASS.md counts, at a commit: tools/design_counts.sh COMMIT [all]
# With `all` each place is printed, else only how many there are.
c=${1:-HEAD}
show() {
    # $1: what is counted; $2: pattern; further arguments: paths
    what=$1; pattern=$2; shift 2
    found=$(git grep -nE "$pattern" "$c" -- "$@" | grep -vE '^[^:]*:[^:]*:[0-9]+: *//')
    n=$(printf '%s' "$found" | grep -c '')
    printf '%4d  %s\n' "$n" "$what"
    if [ "$all" = all ] && [ "$n" -gt 0 ]; then printf '%s\n' "$found" | cut -d: -f2- | sed 's/^/        /'; fi
}
all=$2
src='crates/*/src/*.rt'
echo 'point 1'
show 'enums' '^(pub(\(crate\))? )?enum ' "$src"
show 'match arms from a bare number' '^ +[0-9]+ => ' "$src"
show 'match arms to a bare number' '=> [0-9]+,$' "$src"
show 'codes compared with a number' '\bcode (==|!=|<|>|<=|>=) [0-9]' "$src"
show 'functions that answer with a flag' '(-> |Result<)bool\b' "$src"
echo 'point 2'
show 'functions' '^ *(pub(\(crate\))? )?fn ' "$src"
show 'structs' '^(pub(\(crate\))? )?struct ' "$src"
show 'impls of a trait' '^ *impl\b.* for ' "$src"
echo 'point 3'
show 'loops' '^ *(for|while|loop)\b' "$src"
show 'indexed elements' '[a-z_)]\[[^]]*[a-z0-9]\]' "$src"
echo 'point 4'
show 'impls of Clone, Copy, PartialEq, Eq, Ord, Hash, Default, Debug' '^ *impl\b.*\b(Clone|Copy|PartialEq|Eq|PartialOrd|Ord|Hash|Default|Debug) for ' "$src"
show 'impls of Display, Error, From, TryFrom' '^ *impl\b.*\b(Display|Error|From(<.*>)?|TryFrom(<.*>)?) for ' "$src"
show 'functions that convert or print' '\bfn (number|\w+_of|put_\w+|hex_digit)\b' "$src"
echo 'point 5'
show 'a table of 256 entries' '256 ≤ length table' "$src"
show 'a number of an entry, from 1' '1 ≤ n' "$src"
show 'a number of an entry, up to 256' '≤ 256' "$src"
show 'a length up to 65536' '≤ 65536' "$src"
show 'offsets that lie in the file' 'Fits \(file' "$src"
show 'a body that lies in the file' 'BodyInside \(file' "$src"
show 'a part that lies in the file' '\(?Inside \(file' "$src"
show 'a reader that stays where it was' 'OnErr result \(self\.new\.at ≡ self\.old\.at\)' "$src"
show 'a file of at most 1048577 bytes' '≤ 1048577' "$src"
show 'a table and a reader taken together' 'reader: &mut Reader, *(table|$)|^ +table: &mut \[' "$src"
echo 'point 6'
show 'places and lengths' '\b(start|len|count|end|at): usize' "$src"
show 'constants for nothing' '\b(NO_OFFSETS|NO_BYTES)\b' "$src"
echo 'point 7'
show 'closures, function values and dyn' '\|[a-z_&]*\||\b(Fn|FnMut|FnOnce)\(|\bdyn\b' "$src"
echo 'point 8'
show 'answers' '^ *pub [^ ]+ : goal\.' 'crates/*/proofs/*Answers.antt'
show 'invariants and measures' '^ *abbrev pub [^ ]+ : goal\.' 'crates/*/proofs/*Invariants.antt'
