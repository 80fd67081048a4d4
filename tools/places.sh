#!/usr/bin/env bash
# Counts in src/ the places of each point of docs/DESIGN-PASS.md, by the same patterns each time: a line 'point: pattern's name: how many'.
# 'tools/places.sh -v NAME' prints the places of one pattern, 'tools/places.sh FOLDER' counts in another checkout.
set -euo pipefail
verbose=
if [ "${1:-}" = -v ]; then verbose=$2; shift 2; fi
cd "${1:-$(dirname "$0")/..}"
mapfile -t files < <(find crates/*/src -name '*.rt' | sort)
count() { # point, name, pattern
    if [ "$verbose" = "$2" ]; then grep -nE "$3" "${files[@]}" || true; fi
    if [ -z "$verbose" ]; then printf '%s: %s: %s\n' "$1" "$2" "$(cat "${files[@]}" | grep -cE "$3" || true)"; fi
}
# 1: a flag with a value beside it, a number for a refusal or a kind, values that stand for "none", enums with a case for "none" or "wrong"
count 1 flags '^ +(pub )?(found|fits|there|right|is|works|ended|open|turns|fills|is_set|is_fresh|is_going|is_wrong): bool,'
count 1 numbers-as-fields '^ +(pub )?(refusal|outcome|reason|statement|side|number|mark|sign|has): u(8|32),'
count 1 numbers-as-answers '^(pub )?fn (\w+_refusal|wrong_records|order|order_octets|compare|count_of|end_reason|either)\(.*-> u8'
count 1 numbers-as-arguments '\b(refuse|refused|refusal|answer|accept|untried|refused_frame)\([0-9]+[,)]|refusal: [1-9][0-9]*,|either\('
count 1 refusal-tests '\.refusal [!=]= 0|number != 0'
count 1 values-for-none 'NOWHERE|return 65;|n == 65|=> 16,|== 16\b|== 10 \{|^ +256$|pair > 255|_ => 10,|number > 255'
count 1 own-options '^ +(Nothing|Wrong|Long|End),$'
# 2: functions and types that differ in a type, a size or a constant
count 2 twins '^(pub )?fn (num16|num32|be16|be32|copy|put_words|lesser|greater|least|one_if|wide|room|small_room|share_many|share_few|high_with|low_with|appended_route|joined_route|extension_length|extension_size|extensions_of|half_mebibyte|line|longest_line|file_and_more|longest_argument|wide_slip|settings_of|store_of|width_of|packet_of|one_of|two_of|six_of|goes_on|print_refusal|put_refusal|put_lost|put_reason|put_file_refusal|octet_at|hex_digit|digit_of|filter_in|address_in|start|ended|printed)\('
# 3: loops that count by hand
count 3 while-loops '^ +while '
count 3 counted-by-hand '^ +(i|j|n|k|index|files|number) \+= 1;'
# 4: equality, order, conversion and printing by hand
count 4 octets-by-division '/ (16777216|65536|256|1) % 256\)|/ 16777216\)|w % 256\)|\* 16777216'
count 4 compared-by-hand '^(pub )?fn (is_same|are_same|are_alike|same_filter|lesser|greater|least|effective_time|in_seven_bits)\('
count 4 converted-by-hand '^(pub )?fn (wide|one_if|digit_of|deviation_of|sign_of)\('
count 4 printed-by-hand '^ *(pub )?fn (put|print)_\w+'
count 4 fields-repeated '^ +(\w+): \1,$'
# 5: facts that stand in three contracts or more, and parameters that travel together
count 5 state-is-360-words 'length words\.(now|old) ≡ 360'
count 5 route-is-19-words '19 ≤ length (part|a|b)\.now'
count 5 route-below-8 'i < 8|route < 8|n ≤ 8'
count 5 room-on-a-page '≤ length page\.old'
count 5 laid-on-a-page 'Laid page\.old'
count 5 file-at-most-a-mebibyte '≤ 1048576'
count 5 judged-before 'first \(judged '
count 5 page-and-printer 'page: &mut \[u8\]'
count 5 words-store-output 'store: &mut \[u8\]'
count 5 margin-of-a-line 'margin: &(\[u8\]|str)'
# 6: a buffer with how much of it counts, text as octets
count 6 buffer-and-count "(out|buffer|line|octets|file|path|store|output|space): &('a )?mut \[u(8|32)\]"
count 6 texts-as-octets '(put_all|put_label|write_all|field|lay|report|print_number|print_release|print_time)\(.*b"'
# 7: a match on which step runs
count 7 matches '^ +match '
