#!/bin/sh
# Prints the places of each point of docs/DESIGN-PASS.md, a line for each; the last line of a point is their number.
# Run at the top of a checkout.
list() {
    echo "== $1"
    shift
    "$@" | tee /tmp/count-forms.$$ | sed 's/^/  /'
    echo "  -- $(grep -c . /tmp/count-forms.$$) places"
    rm -f /tmp/count-forms.$$
}
src() { find crates -path '*/src/*.rt' | sort; }
point1a() { src | xargs grep -nE 'None => (return )?None|None => false|is_some\(\) \{|is_none\(\) \{|let mut found = None' ; src | xargs grep -nA1 -E 'else \{$' | grep -E 'return (None|false);'; src | xargs grep -nE 'else \{ return (None|false)' ; true; }
point1b() { src | xargs grep -nE '(kind|outside|more): u16,|fn of\(number: u16\)'; true; }
point3() { src | xargs grep -nE '^\s*(for [a-z_]+ in .*\.\..*\{|while )'; true; }
point4() { src | xargs grep -nE 'fn (of|same)\(|fn number\(self\)|fn print_(counts|fault)|fn width\(\) -> usize|\.number\(\) == '; true; }
point6() { src | xargs grep -nE '\[u16; [0-9]+\],|\[Binding<E>\],|kept: Vec<u8>|Vec<Option<Place>>,$|while let \['; true; }
point7() { src | xargs grep -nE '^impl.* (Test|Claims|Tablewise|RowTest)(<.*>)? for '; true; }
list "1, Option and Result taken apart by hand" point1a
list "1, numbers for kinds and flags" point1b
list "3, loops over an index, and while" point3
list "4, conversion, equality and printing by hand" point4
list "6, buffers with a length, parallel arrays" point6
list "7, structs that stand for a function" point7
