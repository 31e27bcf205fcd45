#!/bin/sh
# Misuse that must not compile: a line given to a closed dictionary, and a draft used where a dictionary is wanted.
# The right program is accepted and runs; each edit of it must be refused by the compiler, under the error that is named.
set -eu
cd "$(dirname "$0")/.."
dir=$(mktemp -d)
trap 'rm -rf "$dir"' EXIT

mkdir -p "$dir/crates/misuse/src"
for lib in refusal lexicon formula written; do
    mkdir "$dir/crates/$lib"
    cp -r "crates/$lib/src" "crates/$lib/specs" "$dir/crates/$lib"
    grep "^$lib:" crates.txt >> "$dir/crates.txt"
done
echo 'misuse: refusal lexicon formula written' >> "$dir/crates.txt"

cat > "$dir/right.rt" <<'RT'
#![tactic(auto)]

use lexicon::dictionary::Dictionary;
use written::draft::Draft;

fn size<D: Dictionary>(dictionary: &D) -> usize {
    dictionary.words()
}

fn main() {
    let mut table = [0u16; 64];
    let mut draft = Draft::new(&mut table);
    let _ = draft.line(b"one\tD+");
    let closed = draft.close();
    let _ = size(&closed);
}
RT

# try FILE: compile and run one program over the repository's libraries
try() {
    cp "$1" "$dir/crates/misuse/src/main.rt"
    (cd "$dir/crates/misuse" && rt try) > "$dir/out" 2>&1
}

# refuse ERROR OLD NEW: the edited program is refused under that error
refuse() {
    sed "s|$2|$3|" "$dir/right.rt" > "$dir/edited.rt"
    if cmp -s "$dir/right.rt" "$dir/edited.rt"; then echo "misuse: the edit changes nothing: $3"; exit 1; fi
    if try "$dir/edited.rt"; then echo "misuse: TAKEN: $3"; exit 1; fi
    if ! grep -q -F "error[$1]" "$dir/out"; then echo "misuse: refused for another reason:"; head -3 "$dir/out"; exit 1; fi
    echo "refused, $1: $3"
}

try "$dir/right.rt" || { echo "misuse: the right program is refused:"; head -5 "$dir/out"; exit 1; }
refuse borrow-e0382 'let _ = size(&closed);' 'let _ = draft.line(b"two D+");'
refuse unsatisfied-bound 'size(&closed)' 'size(\&Draft::new(\&mut [0u16; 8]))'
