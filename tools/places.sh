#!/usr/bin/env bash
# Lists the places in the sources where a newer form of the language might be plainer, by kind.
# docs/DESIGN-PASS.md says what was made of each. Usage: tools/places.sh [KIND]; a count for each kind, or the places of one.
cd "$(dirname "$0")/.."

search() {
    grep -rnE "$1" --include='*.rt' crates/*/src
}

# 1: a flag beside a value, a value that stands for none, numbers for kinds and refusals
kind_1() {
    search '\(bool, &|\(bool, u|if (end|index|self\.left) == 0|kind: u8|fn (bool|error)_cell\(|_ => return None|fn number\(&self\)|^    let mut number = match|fn make\('
}

# 2: functions that differ only in a size, a type or a constant
kind_2() {
    search 'fn (two|three|four)_bytes|^impl Width for|fn number\(&self\)|fn next(_back)?\(|fn read_u|=> match sound_part|fn (start|end|width|height)\(&self|fn is_(duration|datetime)\(|if corners\.(first|last)_|fn has_no_parts|span\((corners|self)\.'
}

# 3: loops that count or walk by hand
kind_3() {
    search '^ *while |^ *for \w+ in 0\.\.|\.enumerate\(\)|^ *(start|at|number|month|left) [-+]?= '
}

# 4: equality, order, conversion and printing by hand
kind_4() {
    search '^impl.* (From<.*>|TryFrom<.*>|fmt::Display|PartialEq|Eq|Ord|PartialOrd|Clone|Hash|Default) for|fn (holds|bool_cell|error_cell|as_bytes|words)\(|(Some\(.*\) => |None => )|if [^ ].*\{ Some\('
}

# 5: a fact asked again and again, and parameters that travel together
kind_5() {
    search 'requires .*(Under|last_day|ordered|limited|all_ascii_digits|length (file|bytes)\.now|Lawful|2 \^ 63|year_length)|fn [a-z_0-9]+(<.*>)?\((is_1904|is_leap|minus|down|file|whole|text|bytes): [^,]+, [a-z_]+:|_in_|span\((corners|self)\.'
}

# 6: buffers with a length or a place beside them, parallel arrays, indices
kind_6() {
    search '\[u8; [0-9]+\]|(pub |pub\(crate\) )?(place|len|start|ends|at|cells_place|text_place|left|cell_count): (usize|u32|&)|\[(index|place|start|at|power)( - 1)?\]|split_at\('
}

# 7: a switch on which step to run, tables of functions
kind_7() {
    search 'dyn |fn\(|Fn(Mut|Once)?\(|name\.as_str\(\) =='
}

for kind in ${1:-1 2 3 4 5 6 7}; do
    if [ $# -gt 0 ]; then
        "kind_$kind"
    else
        echo "$kind: $("kind_$kind" | wc -l)"
    fi
done
