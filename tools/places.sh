#!/bin/sh
# Counts, at a commit, the lines of the sources that the patterns of docs/DESIGN-PASS.md find: sh tools/places.sh COMMIT [-v]
# With -v the lines themselves are printed too.
commit=${1:-HEAD}
show=$2
look() { # name, Perl pattern
    lines=$(git grep -nP "$2" "$commit" -- ':(glob)crates/*/src/**/*.rt')
    printf '%s: %s\n' "$1" "$(printf '%s' "$lines" | grep -c .)"
    [ "$show" = -v ] && printf '%s\n' "$lines" | sed "s/^$commit:/    /"
    return 0
}
look '1 enums' '^\s*(pub(\(crate\))? )?enum '
look '1 none by a number' 'NO_WORD|BARE\b'
look '2 faults carried by hand' 'fn (in_place|of_the_whole|of_line|in_text)\b'
look '2 types of a fault' 'pub struct \w*Fault\b'
look '3 loops with while' '^\s*while '
look '3 loops over numbers' '^\s*for \w+ in [^.{]*\.\.'
look '4 comparing, converting by hand' 'fn (same\w*|among|goes_on|precedes|of|is_yes|is_capital)\b'
look '5 a place within the formula' '[≤<] length formula\.now'
look '5 a table in order' 'requires (roomy|few|whole)|ghost (roomy|few|whole)|ensures (roomy|few|whole)'
look '5 what a write leaves' 'ensures (len|used|words) '
look '5 links in order' 'ordered \(pairs links'
look '5 the sentence of a filing' 'sentence_of \(D\.meaning dictionary\.now\) rows\.now'
look '5 parameters together' '(cells: &\[u16\], used: usize)|(formula: &\[u8\], (at|from|place|a|names|fresh|disjuncts|out|ways|one|depth)\b)|(dictionary: &D,)'
look '6 length beside a table' '^\s*(pub(\(crate\))? )?(len|count|words|used): usize,'
look '6 fixed tables' '^\s*(pub(\(crate\))? )?\w+: \[\w+; \w+\],'
look '6 sets and places as numbers' 'set: u64|places: \[usize'
look '7 a switch on what to do' 'Sought::|Letter::|Letters::'
