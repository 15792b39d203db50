#!/bin/sh
# The places of each point of docs/DESIGN-PASS.md, counted in crates/*/src. Run at the top of the repository.
# With an argument, as `sh docs/design-counts.sh 3`, the places of that point are listed.
src() { find crates/*/src -name '*.rt' | sort | xargs "$@"; }
# 1: an Option or Result taken apart and put together by hand, an enum beside a state that is absent or past its end, a 0 that stands for none
point1() {
    src grep -nE '(None => (Err|None|return|0|\[)|Err\(\w+\) => Err|Some\(\w+\) => (Ok|Some)\(|Ok\(\w+\) => Ok\(|\.is_some\(\) \{|\.is_err\(\) \{|^    Start,|_ => 0,$|Err\(_\) => )'
    src awk 'FNR == 1 { held = 0 } /let Some\(.*else \{/ { held = FNR; line = $0 } /return (Err|None|Ok|0|Some)/ && held && FNR == held + 1 { print FILENAME ":" held ":" line }'
}
# 2: sums, places, grids and limits written in two crates, and functions that differ in a constant, a type or a closure
point2() {
    src grep -nE 'fn (weighted_price_sum|weighted_factors|place|read_lambda|read_end|read_constraint|read_outage|push_lambda|push_end|push_constraint|push_outage|push_digits|push_byte|bus_numbers|of\(bus|base_live|members|with_status|with_load|is_live\(&self, market|load_in|index_below|posted|constraint_number|market_name|kind_name|kind_letter|hub_number|market\(&mut|kind\(&mut|number\(&mut self\)|has_bus|day_ahead\(|real_time\(book|point_price<P|base_weights|base_total|live_set|code|out_of_order|read\(numbers|hub|zone|product|valued|fine_price|difference)\b|const (BUSES|COLUMNS|PLACES|MOST_POSTED|MOST_TABLE_NUMBER|MOST_NUMBER|MOST_DIGITS|LAST_CONSTRAINT)|struct (Numbers|Factor|BusRow|BusLine|DayAhead|RealTime)\b|fn main'
}
# 3: loops that count by hand
point3() { src grep -nE '(^ *while |for \w+ in [0-9]|for \(\w+, \w+\) in .*enumerate)'; }
# 4: conversions and printing by hand: casts, matches that turn an enum to a number or text or back, types without derives
point4() {
    src grep -nE '\bas (u8|u16|u32|u64|usize|i8|i16|i32|i64|i128|char)\b'
    src grep -nE 'fn (numbered|named|hub_number|market_name|kind_name|origin_words|price_text|text|answer_text|granted_text|refused_text|fault_text|usage_text|write_refusal|write_question|write_weights|digits_of|dollars|sign)\b'
    src awk '/^#\[derive\(Clone, Copy\)\]/ { getline next_line; print FILENAME ":" FNR ":" next_line }'
}
# 5: a clause that three functions have, and parameters that travel together
point5() {
    src grep -nE 'requires( \w+)? \{ (self\.old\.lines \+|places ≤ length|Light weights|bus_sound|Within (most_weighted|192000000000000000000|1000000|5120000000000))'
    src grep -nE 'fn .*(book: &Book, weighting: &W, posting: &P|weights: &Weights, posting: &P|page: &mut Page|book: &mut Book|heap: Global|book: &Book, f: &mut|book: &Book, hub_bus: u8, f|weighting: &W, *$)|^    page: &mut Page|^    (weighting: &W,|heap: Global,)$'
    src grep -nE 'Case \{$'
}
# 6: buffers with a length or a first place beside them, arrays filled by place
point6() { src grep -nE '^    (pub )?(cells: \[|len: usize|places: \[|first: usize|lines: u32|rest: )|let mut \w+ = \[\[?0'; }
# 7: the same step chosen by a switch in two places
point7() { src grep -nE 'match (\*?point\.kind|market|kind|self\.kind|verb|letter|\*?deed|\*?call|\*?self|row|match) '; }
if [ $# -eq 1 ]; then "point$1"; else for n in 1 2 3 4 5 6 7; do echo "point $n: $("point$n" | wc -l)"; done; fi
