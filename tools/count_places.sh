#!/bin/sh
# Counts the places that docs/DESIGN-PASS.md speaks of, at a commit: tools/count_places.sh [COMMIT]. Each line names
# what a pattern stands for; whether a place stays, and why, is said on the page.
at=${1:-HEAD}
places() {
    printf '%5d  %s\n' "$(git grep -nE "$2" "$at" -- ':(glob)crates/*/src/**/*.rt' | wc -l)" "$1"
}
refusals='OUT_OF_TABLE|OVER_LIMIT|NO_TIME|UNEVEN_TRACK|KEYS_OUT_OF_LINE|SHORT_SCRATCH|NO_SUCH_NODE|UNPLACED_NODE'
refusals="$refusals|NO_PALETTE|SHORT_OUTPUT|NO_COMMON_ROOT|NO_SUCH_FRAME|BAD_FORM"
places '1  enums with a variant for nothing, or for a refusal' '^ +(Nothing|None|Refused\(u32\)),$'
places '1  fields that are a flag, a mark or a number beside a value' \
    '^ +pub (number|reason|mark|any|ok|whole|told|normal|has_[a-z]+): (u32|bool)'
places '1  refusals by a constant' "\\b($refusals)\\b"
places '1  a number looked at for 0' '(!=|==) 0 \{$'
places '2  functions with a twin by their names' \
    'fn (from_bits|is_finite|load|store|lerp|cubic|choose|put|fill|read|write|copy|keep|wipe|count|turn|flip|move|project)[a-z_]*(_f64|[134]|16|s|_floats|_words)\('
places '2  a word as an index, by a function of its own' 'fn wide\('
places '3  loops by while or loop' '^ *(while|loop)\b'
places '3  the smaller of two by a function of its own' '\bleast\('
places '4  numbers into kinds and back, by comparing' 'if [a-z_.]+ == [0-9] \{$'
places '5  parameters of a lent scene' '^ +(words|floats|node_weights|mesh_weights|h|header): '
places '5  parameters of the scratch room' '^ +(marks|slots|walk|places|worlds): '
places '5  parameters of the attributes of vertices' '^ +(positions|normals|tangents): '
places '6  an end or a count beside what it counts' '^ +pub (len|length|count|end|top|used|left): '
places '7  functions that take a number or a mark for a step' '\bwhich: u32|\bstep: u32|\bphase: u32'
printf '%5d  %s\n' "$(git grep -lE '.' "$at" -- ':(glob)crates/*/proofs/**/Answers.antt' | wc -l)" '8  files of answers'
printf '%5d  %s\n' "$(git grep -hE '.' "$at" -- ':(glob)crates/*/proofs/**/*.antt' | wc -l)" '8  lines of proofs'
