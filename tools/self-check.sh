#!/bin/sh
# The repository's own checks, after the gate. Each complains of all that it finds.
set -u
CDPATH='' cd -- "$(dirname -- "$0")/.." || exit 2
fail=0

# Runs a check, and says what is wrong where it fails.
check() {
  wrong=$1
  shift
  "$@" || { echo "self-check: $wrong" >&2; fail=1; }
}

no_handles() { [ "$(cat HANDLES)" = "Handles allowed: none." ]; }

# Whether docs/PROVED.md names each crate of crates.txt but those of contract tests, which claim nothing of their own.
proved_names_crates() {
  right=0
  for name in $(sed 's/#.*//; s/:.*//; /^pv_contracts_/d' crates.txt); do
    grep -q "\`$name\`" docs/PROVED.md || { echo "docs/PROVED.md says nothing of $name" >&2; right=1; }
  done
  return "$right"
}

# Two screens of 100 columns.
readme_is_short() { [ "$(wc -c <README.md)" -le 10000 ] && [ "$(fold -w 100 README.md | wc -l)" -le 110 ]; }

# Whether no line of the tracked files $2.. has the pattern $1; those that have it are shown.
is_nowhere() {
  pattern=$1
  shift
  git grep -nIiE -e "$pattern" -- "$@" >&2
  [ $? -eq 1 ]
}

# Whether the schema of cases takes those that it has to, where Python's jsonschema is there.
schema_holds() { ! python3 -c 'import jsonschema' 2>/dev/null || python3 tools/check-schema.py; }

# Whether the program answers each row of examples/answers.txt so.
examples_answer() {
  right=0
  while read -r example case trace answer; do
    [ "$example" != '#' ] || continue
    said=$(./plcv replay "examples/$example/$case.json" "examples/$example/$trace.txt" </dev/null | tail -n +4 | paste -s -d ';' -)
    [ "$said" = "$answer" ] || { echo "examples/$example: $case and $trace say $said" >&2; right=1; }
  done <examples/answers.txt
  return "$right"
}

check "HANDLES must be its one line" no_handles
check "the script plcv must be executable" test -x plcv
check "docs/PROVED.md leaves out a crate" proved_names_crates
check "a line of crates.txt doesn't list what its crate names" python3 tools/check-lines.py
check "README.md is longer than two screens (10,000 bytes, 110 lines of 100 columns)" readme_is_short
check "a file has a path of the machine on which it was made" is_nowhere '(^|[^[:alnum:]_.})/-])/(home|root|work|opt|tmp|mnt)/[[:alnum:]]' .
check "a document tells of its making" is_nowhere 'fresh reader|two readers|the owner|rt plant|this session|later that day' '*.md'
check "a document tells of its making" is_nowhere '\<helpers?\>' '*.md'
check "a document names a clause that isn't there" python3 tools/check-clauses.py
check "a document names a file that isn't there" python3 tools/check-files.py
check "a function has more than 40 lines" python3 tools/check-lengths.py
check "a proof takes more of another crate's proofs than its module ForCallers" python3 tools/check-callers.py
check "docs/ARCHITECTURE.md maps other crates than crates.txt lists" python3 tools/check-map.py
check "a public call has no contract test" python3 tools/check-contracts.py
check "a recipe leaves out a file that its change touches" python3 tools/check-recipes.py
check "an example is answered otherwise" examples_answer
check "tools/trace.py makes another trace, or tells another fault" python3 tools/check-trace.py
check "tools/waveform.py draws something else" python3 tools/check-waveform.py
check "docs/case.schema.json takes or refuses a case that it should not" schema_holds
for document in $(git grep -lE '^```console' -- '*.md'); do
  check "the program says something else than $document" python3 tools/check-sessions.py "$document"
done

[ "$fail" -ne 0 ] || echo "self-check: passed"
exit "$fail"
