#!/usr/bin/env bash
# Counts the lines in src/ that may be places of an older form; docs/DESIGN-PASS.md says which of them are. With -v it prints them.
# Usage: tools/places.sh [-v]   at the top of the repository
cd "$(dirname "$0")/.." || exit 1
show=
[ "${1:-}" = -v ] && show=yes
count() {
    local name=$1
    shift
    local found
    found=$(grep -rnE "$@" crates/*/src | grep -vE ':\s*(//|ghost use)')
    printf '%s %s\n' "$name" "$(printf '%s' "$found" | grep -c .)"
    [ -n "$show" ] && [ -n "$found" ] && printf '%s\n' "$found" | sed 's/^/    /'
}
count '1a numbers for kinds or limits    ' 'const [A-Z_]+: u32 = [0-9]+;'
count '1b 0 or 1 for a case              ' 'if .* \{ [01] \} else \{ [01] \}'
count '1c Option, Result turned by hand  ' '(Ok|Some|Err)\(_?\w*\) => (Ok|Some|Err|None)|None => (Err|Ok|None)'
count '1d Some taken apart to an exit    ' 'if let Some\('
count '1e numbers packed into one        ' 'Some\([0-9]+ \+ i\)'
count '1f a number plus one, 0 for none  ' '!= 0 &&|== 0 \|\||if reference != 0|reference as usize'
count '3  loops over numbers             ' 'for \w+ in [^{]*[^.]\.\.|\bloop \{|\bwhile |\+= 1;'
count '4a casts by as                    ' ' as (u8|u32|u64|i32|i64|usize)\b'
count '4b comparisons of fields by hand  ' '\w+\.\w+ == \w+\.\w+ && \w+\.\w+ == \w+\.\w+|< x \|\|'
count '4c lines built piece by piece     ' 'push_field\(|push_figures\(|push_readings\('
count '5a grid and interval as two       ' 'grid: &(Checked|Grid)'
count '5b facts asked of an argument     ' '\brequires\b'
count '6a arrays as fields               ' '^\s+(pub )?(pub\(crate\) )?\w+: \[[A-Za-z0-9]+; [0-9]+\],$'
count '6b counts as fields               ' '^\s+(pub )?(pub\(crate\) )?(\w*count|used|piled): usize,$'
count '7  switches on a kind             ' 'match (self|kind) \{'
printf '8  files and lines in proofs/      %s %s\n' "$(git ls-files 'crates/*/proofs/*.antt' | wc -l)" "$(git ls-files -z 'crates/*/proofs/*.antt' | xargs -0 cat | wc -l)"
