#!/bin/sh
# The places that docs/DESIGN-PASS.md counts, one a line, with its point in front; the counts at the end: places.sh [FOLDER], a checkout, else this one.
# A place is a line of crates/*/src that one of these searches finds. `places.sh FOLDER 3` lists point 3 alone.
set -eu
cd "${1:-$(dirname "$0")/..}"
only=${2:-}
list() { # POINT NAME PATTERN
  grep -rnE --include='*.rt' "$3" crates/*/src | grep -vE '^[^:]*:[0-9]*: *//' | sed "s|^|$1 $2: |" || true
}
places() {
  list 1a 'enum' '^(pub(\(crate\))? )?enum '
  list 1b 'flag beside a value' '^ +(pub )?[a-z_]+: bool,|^ +pub refused: Checked|io::Result<bool>|^    pub line: usize,|^    pub first: Quaternion,'
  list 1c 'number for a kind, or for none' 'NOT_PLACED|[A-Z]+_BYTE: u8|^        return 0;|_ => 0,|if r == 0|fn next_word.*-> u64|fn [a-z]+_code'
  list 2 'function or type with a twin' 'fn divide_(vector|quaternion)|fn is_finite\(|fn (outcome|shared|imported)_code|fn (not_a_record|short_text|check_text)|fn put_(small|number)|fn (add|remove)_view|fn (half|read_half|wide)\(|fn probe_(stream|calls)|fn print_by|struct (Session|Held) |const POSE_BYTE|fn replay_calls|fn run_calls'
  list 3 'loop' '^ +while '
  list 4 'by hand' '256 \* wide|half\(bytes|\(word % 256\)|rest % 256|4294967296 \*|!= x|x == x|fn (held_of|session_of|with_sizes|with_masks|same|signed|wide|is_finite|kept)\(|"no \{\} \{\}|no \{\} \{\}|wrapping_add_u(32|64)\(|% 256\) as u8'
  list 5 'fact or parameters that travel' 'Fitting rig floats|possible_held held|rig: Rig, floats|^    rig: Rig,|transforms: &(mut )?\[f64\],|out: &mut \[u8\], at: usize|view: u8, camera: u8|view: u8,$|used: usize,'
  list 6 'length beside, parallel arrays' '^    (pub )?(parent|links|layer): \[u8|^    (pub )?size: usize|size: usize,$|-> usize$|let mut (used|kept|done|count) = 0usize|const MOST_[A-Z]+: usize'
  list 7 'switch on a step' 'match parse\(|let mut more = true|fn probe_(stream|calls)|fn print_by'
}
all=$(places)
if [ -n "$only" ]; then
  printf '%s\n' "$all" | grep "^$only" || true
else
  printf '%s\n' "$all"
fi
for point in 1a 1b 1c 2 3 4 5 6 7; do
  printf 'point %s: %d\n' "$point" "$(printf '%s\n' "$all" | grep -c "^$point ")" || true
done
printf 'point 8: %d answers in %d files, %d lemmas in %d files\n' \
  "$(cat crates/*/proofs/*/Answers.antt crates/*/proofs/*/*/Answers.antt crates/*/proofs/*/*/*/Answers.antt 2>/dev/null | grep -cE '^pub [^ ]+ : goal\.')" \
  "$(find crates -path 'crates/*/proofs/*' ! -path '*/out/*' -name Answers.antt | wc -l)" \
  "$(find crates -path 'crates/*/proofs/*.antt' ! -path '*/out/*' ! -name Answers.antt ! -name Invariants.antt ! -name Lib.antt -print0 | xargs -0 cat | grep -cE '^ *(pub )?[^ -][^ ]* ?(\{[^}]*\})? : .*')" \
  "$(find crates -path 'crates/*/proofs/*.antt' ! -path '*/out/*' ! -name Answers.antt ! -name Invariants.antt ! -name Lib.antt | wc -l)"
