# For the test scripts that count what passes and what fails; they source this and end in `finish`.
scratch=$(mktemp -d)
trap 'rm -r "$scratch"' EXIT
passed=0
failed=0

fail() {
  failed=$((failed + 1))
  echo "FAILED $*"
}

# finish: the last line, and the script's status
finish() {
  echo "$passed passed, $failed failed"
  [ "$failed" = 0 ] && [ "$passed" != 0 ]
  exit
}

# need PROGRAM: without it nothing can be shown, and that is no pass
need() {
  command -v "$1" >/dev/null && return
  fail "$1 is not on the path"
  finish
}

# try NAME COMMAND ..: a command that must succeed; what it wrote is shown where it does not
try() {
  local name=$1
  shift
  if "$@" >"$scratch/log" 2>&1; then
    passed=$((passed + 1))
  else
    fail "$name"
    tail -n 30 "$scratch/log"
  fi
}

# cargo_tests FOLDER [LINES]: runs the tests of a Rust crate and adds up the lines that LINES, for sed, turns into two numbers: each
# test, if nothing else is said. Their output stays in $scratch/log.
cargo_tests() {
  local status=0 good=0 bad=0 g b
  local lines=${2:-'s/^test result: .* ([0-9]+) passed; ([0-9]+) failed;.*/\1 \2/p'}
  cargo test --release --offline --quiet --no-fail-fast --manifest-path "$1/Cargo.toml" -- --show-output \
    >"$scratch/log" 2>&1 || status=$?
  while read -r g b; do
    good=$((good + g))
    bad=$((bad + b))
  done < <(sed -nE "$lines" "$scratch/log")
  passed=$((passed + good))
  failed=$((failed + bad))
  [ "$status" = 0 ] || tail -n 60 "$scratch/log"
  # a crate that does not build, or has lost its tests, has no test that fails
  if [ "$bad" = 0 ] && { [ "$status" != 0 ] || [ "$good" = 0 ]; }; then fail "$1: tests did not run"; fi
}
