#!/usr/bin/env bash
# Lists the places in the crates' src/ that docs/DESIGN-PASS.md speaks of, point by point; tests are left out.
# Usage: tools/places.sh [POINT]; with no point, how many lines each point has.
set -euo pipefail
cd "$(dirname "$0")/.."

find_lines() {
    grep -rnE "$1" crates/*/src --include='*.rt' | grep -vE '(^|[/_])tests\.rt:' || true
}

# 1: enums (to be read: which have the shape of Option or Result), written-out `?` and `map`, flags, numbers
point1() {
    find_lines '^\s*(pub(\([a-z]+\))? )?enum '
    find_lines 'Err\((\w+)\) => (return )?Err\('
    find_lines 'None => (return )?None|Err\(_\) => (return )?None|Some\((\w+)\) => Some\('
    find_lines '^\s+(pub )?(opened|begun|awake): bool|fn \w+\(&mut self.*-> bool'
    find_lines '(denial|letter|kind|status|code): u(8|16|32)\b|Denied\(u8\)|-> Option<Denial>|widest: bool'
}

# 2: functions and types of one name in several places (to be read: which are twins)
point2() {
    find_lines '^\s*(pub(\([a-z]+\))? )?(fn (accept|as_slice|put_next|diagonal_of|set_diagonal|set_table|run_plan|run_on|run_spacing|run_widest|spacing_of|widest_of|fill_low|fill_high|write_low|write_high|whole_\w+|try_(table|counter|strip)|first_fall|falls|values|readings|words|sealed_\w+)\b|struct (Row|Values|Questions|Degrees|Volts|Places)\b|enum (Chosen|Way)\b)'
}

# 3: loops over a range or with a condition, and counts by hand
point3() {
    find_lines '^\s*(for \w+ in [^{]*\.\.[^{]*\{|while )'
    find_lines '\b(number|i|j|end|count|at) (\+|-)= 1|= (number|count)\.saturating_add\(1\)'
}

# 4: functions that print, convert or compare by hand, and records copied field by field
point4() {
    find_lines 'fn (why_\w+|kind_name|plan_name|kind_of|deny|number|cause|own_unit|sign_of)\b'
    find_lines '^\s+low: (ran|limits|bytes|summary)\b'
    find_lines '\]\.\w+ != .*\|\|'
}

# 5: facts that stand in several contracts, and parameters that travel together
point5() {
    find_lines 'is_log points\.now ≡ true|Small (result|reply)|L\.Logger\.table [a-z.]+ \(L\.Logger\.extent [a-z.]+\) < 2 \^ 32|v ≤ 4294967295|asks plan\.new ≡'
    find_lines '(sheet: &\[u8\], (at|from)|out: &mut \[u8\], at): usize|low_table: &mut|line: &mut Line, *place'
}

# 6: arrays with a length beside, parallel arrays, sorted rows searched by hand
point6() {
    find_lines '^\s+(pub(\([a-z]+\))? )?\w+: \[[A-Za-z0-9_<>]+; [0-9_]+\],|let mut \w+ = \[[^;]+; [0-9_]+\];'
    find_lines 'while (from|low) < (to|high)'
}

# 7: switches on which step to run
point7() {
    find_lines '^\s*(let \w+ = )?match (way|purpose|kind|self\.kind|letter|job|line|job\.kind)\b|if widest'
}

if [ $# -eq 1 ]; then
    "point$1"
else
    for point in 1 2 3 4 5 6 7; do
        echo "point $point: $("point$point" | wc -l) lines"
    done
    echo "point 8: $(cat crates/*/proofs/*.antt crates/*/proofs/*/*.antt crates/*/proofs/*/*/*.antt 2>/dev/null | wc -l) lines of proofs"
fi
