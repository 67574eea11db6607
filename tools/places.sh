#!/bin/sh
# Lists the places in the sources that a pass over the code's forms looks at, by point: run it at the top of the repository, of any commit.
# Each heading says what its pattern finds; a hit is a line to read, not yet a fault.
show() { echo; echo "== $1"; shift; grep -rnE "$@" crates/*/src | grep -vE ':[0-9]+: *//' ; }
show "1 enums of our own"                        '\benum \w+'
show "1 flags"                                   'let mut \w+ = (true|false)|: bool\b.*,$'
show "1 None or Err handled by hand"             '(None|Err\(\w+\)) =>|return (None|Err\()'
show "1 numbers for kinds"                       'as u8$|fn numbered?\(|match turn'
show "2 functions, to be read for twins"         '^ *(pub(\(crate\))? )?fn \w+'
show "2 types, to be read for twins"             '^ *(pub(\(crate\))? )?(struct|enum|trait|type) \w+'
show "3 loops and places counted by hand"        'for \w+ in 0|while |\+= 1|-= |\[(place|at|k|i)\]|place \+ 1'
show "4 order, equality, conversion by hand"     'fn (no_better|is_narrower|is_origin|point|on_table|by_bit|by_sign|blank|witness|axis|new)\b| as (u8|i8|u16|u32|i64|u64|usize)\b'
show "4 printing"                                'impl (fmt::)?Display'
show "5 facts that calls ask"                    'requires'
show "6 fixed tables and places beside lists"    '\[\w+; [0-9]+\]|at: usize'
show "7 switches and functions as values"        'match (self|s|c|side|turn)\b|dyn |impl Fn|: fn\('
echo; echo "== 8 proofs: files of answers, answers, lines"
find crates/*/proofs -name Answers.antt | wc -l
grep -rhE '^pub [A-Za-z0-9_-]+ : goal\.' crates/*/proofs | wc -l
find crates/*/proofs -name '*.antt' -exec cat {} + | wc -l
