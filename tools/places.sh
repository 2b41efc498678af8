#!/usr/bin/env bash
# places.sh [COMMIT]: how many lines of src/ match each pattern of docs/DESIGN-PASS.md, in the working tree or at a commit.
set -euo pipefail
cd "$(git rev-parse --show-toplevel)"
count() { printf '%-4s %4s  %s\n' "$1" "$(git grep -hE "$2" ${COMMIT:-} -- 'crates/*/src/*.rt' 'crates/*/src/**/*.rt' | wc -l)" "$3"; }
COMMIT=${1:-}
count 1a '^    (Nothing|End|Refused\(Answer\)|Accepted),$|^    pub answer: Answer,$' 'an enum of the shape of Option or Result, or an answer beside a value'
count 1b '\b(Answer|Reading|Writing|Decision|Taken|Next|Called|PartsRead)\b' 'lines that name such a type'
count 1c 'is_refusal\(' 'a refusal asked for by a call'
count 1d 'NodeNumber::NONE|NodeNumber\(64\)|== 64\b|!= 64\b' 'a number that stands for none'
count 1e 'pub const [A-Z_]+: u(8|32|64) = [0-9]+;' 'a constant number, as of a kind'
count 1f '\b(tag|command|token|place|style|refusal|kind): u(8|32|64)\b' 'a number for a kind, a refusal or a place'
count 1g '\b(fault|more|opened|fits|bare): bool' 'a flag in a record'
count 3a '\bwhile ' 'a loop that counts or walks by hand'
count 3b 'for [a-z_]+ in [^{]*\.\.' 'a loop over numbers'
count 4a '\.0 as (usize|u8|u16|u32|u64)' 'a number of a tuple struct cast'
count 4b '\.0 (==|!=|<|<=) [a-z]+\.0|\.0 (==|!=) NodeNumber' 'tuple structs compared by their numbers'
count 4c '\bas (u8|u16|u32|u64|usize)\b' 'casts'
count 4d 'fn (mark|one_if|wide|number|larger|smaller|is_before|same)\(' 'a conversion, an order or an equality by hand'
count 4e 'let mut next = (own|listener);' 'a record copied, then changed'
count 5a 'Lent ' 'the record of what a step is lent, in a contract'
count 5b 'keys: &\[u32\], *(sides|$)' 'keys, A and B and more as parameters'
count 5c 'length words\.(now|old) ≡ ring_length' 'the length of the words, in a contract'
count 6a '\bat: usize\b' 'a buffer with a place beside it'
count 6b '(counts|listed): &mut \[' 'parallel arrays as parameters'
count 7a 'match (k|tag|kind|command|style)\b' 'a choice by a number'
