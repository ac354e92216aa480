#!/bin/bash
# Lists the candidates of each point of the design pass (docs/DESIGN-PASS.md) in src/, with how many there are.
# Run it at the top of a checkout; with -n it prints the counts alone.
[ "$1" = -n ] && quiet=1
show() { # a name, a pattern
    local out n
    out=$(find crates/*/src -name '*.rt' | sort | xargs grep -nE -- "$2")
    n=$(printf '%s' "$out" | grep -c .)
    printf '%-12s %4d   %s\n' "$1" "$n" "$2"
    [ "$quiet" ] || printf '%s\n' "$out" | sed 's/^/    /'
}
show 1-enums    '^ *(pub )?enum '
show 1-flags    '(: bool[,)]|\(bool, |, bool\)|Result<bool|Option<bool)'
show 1-numbers  'fn (number|refusal)(<.*>)?\(|gone: u8'
show 2-faults   'fn (number|layer|place)\(self\)'
show 2-digits   'fn (dec|hex|digits|last_)[a-z0-9]*(<.*>)?\('
show 2-twins    'fn (any_|must_|enter_over|leaves_in|word_at|call_at|stepped|looked|filled|begun|dropped|settled)'
show 2-forward  'self\.take\(LockCall|self\.lock\.request_'
show 3-index    'for [a-z_]+ in [0-9(]|for \(|while |^ *loop \{'
show 3-each     'for [a-z_]+ in [a-z&]+[.a-z_()]* \{'
show 4-casts    ' as (u8|u16|u32|u64|usize|char)\b'
show 4-convert  'fn (as_char|cell_index|word_of|character_of|eq|cmp|clone|fmt|default)\('
show 4-impls    '^impl.* (From|TryFrom|Display|Default)\b'
show 5-step     '(Takes|Owns|Dispatches|Entered) L\.|\(holding '
show 5-party    'party: Party, words: Words|stage: Stage, ticket'
show 5-words    'rin: u32|rin: words|rin: change|words\.rin, '
show 5-space    ' at: usize'
show 6-length   '^ *pub\(crate\) (count|len): usize|\], usize\)|len: usize, '
show 6-arrays   '\[[A-Z][a-z]*; 32\]|\[u(8|16|32); [0-9]+\]'
show 6-spelled  '\[0\], [a-z]*\[1\]'
show 7-switch   '^ *(Lock)?Call::[A-Za-z]+.*=>|last: bool|if last'
