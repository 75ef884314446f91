#!/usr/bin/env bash
# Counts the places in src/ that docs/DESIGN-PASS.md lists, point by point. Run at the top of a checkout; -v prints each place.
set -u
show=${1:-}
count() {
  local name=$1 lines
  shift
  lines=$("$@" 2>/dev/null | grep -vE '^[^:]*:[0-9]+: *//')
  printf '%-58s %5d\n' "$name" "$(printf '%s' "$lines" | grep -c '')"
  [ "$show" = -v ] && [ -n "$lines" ] && printf '%s\n' "$lines" | sed 's/^/    /'
  return 0
}
src=(crates/*/src/*.rt)
count "1 enums that only say which of Option or Result" grep -nE '^ *(pub(\([a-z]+\))? )?enum (Checked|Verdict|Written|Loaded|Data|Retrieved|Found|Count|Known|Span|Shown) ' "${src[@]}"
count "1 second answers through &mut (told, status, other)" grep -nE '\b(told|status|other): &mut (usize|u8)' "${src[@]}"
count "1 refusals by number" grep -nE 'refusals::[A-Z_]+|Refused\(' "${src[@]}"
count "1 a number in place of none (0)" grep -nE 'return 0;|=> 0,' "${src[@]}"
count "1 constants that number kinds" grep -nE '^(pub(\([a-z]+\))? )?const (SHAPE|NAMES|LEVEL|DOCUMENT|STRICT|TABLES|UNKNOWN|DIGIT|HALF|LONG|NAME|PATH|BYTE|COUNT|BEFORE|WORD|ARGUMENTS|OVER|BLANK|POINT|JUDGE|BUILD|APART|PATHS|EMPTY|YES|NO|NONE|LINE|COLON|COMMAS|WANTED|FAULT|REFUSAL|LAST): (u8|usize|u64)' "${src[@]}"
count "2 functions whose pair has up for down, super for sub" grep -nE '^ *(pub )?fn (write|same)_(super|sub)\(|^ *fn (super|sub)_(fields|sig)\(' "${src[@]}"
count "2 a number of an answer, by the type of the answer" grep -nE '^ *fn (check|written|count)_number\(|^ *fn (level_of|wrote|count_of)\(' "${src[@]}"
count "3 loops that are no for" grep -nE '^ *(while|loop)\b' "${src[@]}"
count "4 conversions by as" grep -nE '\bas (usize|u8|u16|u32|u64)\b' "${src[@]}"
count "4 equality by check::same" grep -n 'check::same(' "${src[@]}"
count "4 own min, max, wide, low, high, least, more, plus" grep -nE '^ *(pub )?fn (min|max|wide|low|high|word|name_number|least|more|plus)\(' "${src[@]}"
count "4 derives of Drop alone" grep -nE '#\[derive\(Drop\)\]' "${src[@]}"
count "5 clauses that a table was read and is marked" grep -nE 'requires .*(Ok \(read_table|Marked table|are_flags table)' "${src[@]}"
count "6 texts by offsets, arrays side by side" grep -nE '^(pub )?const (TEXTS|LETTERS|STARTS|SHAPES|FITS|COUNTED): \[' "${src[@]}"
count "7 questions by number" grep -nE '^ *[0-9]+ => ' crates/questions/src/ask.rt
