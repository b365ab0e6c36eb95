#!/bin/sh
# Counts, in the checkout given (default: this one), the places that docs/DESIGN-PASS.md speaks of: one line for each kind of place, its point first.
cd "${1:-$(dirname "$0")/..}" || exit 1
count() { # point, what, pattern [, files]
    n=$(grep -rhE "$3" ${4:-crates/*/src} --include=*.rt | wc -l)
    echo "$1 $n $2"
}
count 1 "variants of an own enum that hold a refusal" '^    Refused\('
count 1 "functions that take the refusal out of an answer" 'fn [a-z0-9_]*_refusal\([a-z]+: [A-Z]'
count 1 "constants that are a refusal's number" '^pub const [A-Z_]+: u(8|64) = ([0-9]+|fields::[A-Z_]+ as u64|Refusal::[A-Za-z]+ as u64);' 'crates/fields/src crates/book/src'
count 1 "contracts where a number says that there is no value" 'ensures \{ (0 < result|result < 256|result < TOP|result\.next ≡ 0)'
count 1 "fields of a struct that are a refusal or 0" '^    pub refusal: u(8|64),'
count 1 "contracts of a number that is a refusal or 0" '(\{ |→ |\()result(\.refusal)? ≡ refusal_of'
count 1 "tests whether there is a refusal" 'refusal != 0|(unfit|first|unsound) != 0'
count 1 "constants and tests of a kind that is a number" '(CREATE|REMOVE|APPEND|FIRST|CLOSED): u(32|64)|if (kind|list) == '
count 2 "functions and types of one shape, by hand (docs/DESIGN-PASS.md lists them)" 'fn (u8|u32|u64|i32|i64|skip|walked|register|immediate|operand|passed|op|blocks|tail)_refusal\(|enum (U8|U32|U64|I32|I64|Register|Immediate|Operand|Op|Tail)Read|enum (Skip|Walked|Passed|Asked)|fn (registers|operands|instructions|conventions|blocks|vips)_(run|end)\(|fn then_[a-z_]+\(|fn (gread_)?(routine|convention|register|block|instruction|vip)(_at)?\(|fn (signed|bits)(32|64)\(|fn put_u(8|32|64)\(|fn (mask|normalise)_(operands|instructions|conventions|blocks)\('
count 3 "loops written with while" '^ *while '
count 4 "conversions and comparisons by hand" 'fn (two|four|eight|signed32|signed64|bits32|bits64|put_u8|put_u32|put_u64|name_is|flag_bit|wide|number|size_of|signed)\('
count 5 "contracts that speak of an image that holds a routine" 'Holding (self\.now\.)?image\.now x →|BlocksStand image\.now result'
count 5 "contracts that require a sound state" 'requires \{ .?(IsSound|IsUnwalked)'
count 5 "functions that take an image and a journal" 'image: &(mut )?\[u8\], journal: &|^    journal: &(mut )?\[u8\],'
count 5 "functions that take a slice and an offset" '\(?(s|a|image|journal): &(mut )?\[u8\], at: usize'
count 6 "an array with a length beside it, parallel tables, a sorted list searched by hand" 'const (NAMES|LENGTHS|COUNTS|BY_LENGTH)|written: usize|count: usize\)|b: &mut \[u64\]'
count 7 "switches on which step to run" 'if kind == |fn call\('
