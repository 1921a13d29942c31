# shellcheck shell=bash
# Sourced by the tests of this folder: counts the cases that pass and fail.
passed=0
failed=0

pass() {
  passed=$((passed + 1))
}

# fail WORDS..: says which case failed.
fail() {
  failed=$((failed + 1))
  printf 'FAILED %s\n' "$*"
}

# each_datagram COMMAND FILE: runs COMMAND PLANE HEX LINES for each datagram of examples/datagrams, and of tests/lines/control,
# control-lengths and user, where LINES is a file with the lines that it is shown as; '=' stands for any but a fault. FILE is written
# over.
each_datagram() {
  local file name
  for file in examples/datagrams/*/*.hex; do
    "$1" "$(basename "$(dirname "$file")")" "$(sed -n 's/^\([0-9a-f]*\).*/\1/p' "$file" | tr -d '\n')" "${file%.hex}.lines"
  done
  for name in control control-lengths user; do
    each_of_file "$1" "${name%-lengths}" "tests/lines/$name" "$2"
  done
}

# each_of_file COMMAND PLANE FROM FILE: the same for the datagrams of one file.
each_of_file() {
  local line digits=
  : > "$4"
  while IFS= read -r line || [ -n "$line" ]; do
    case $line in
      '#'*) ;;
      '')
        [ -z "$digits" ] || "$1" "$2" "${digits#-}" "$4"
        digits=
        : > "$4"
        ;;
      *) if [ -n "$digits" ]; then printf '%s\n' "$line" >> "$4"; else digits=$line; fi ;;
    esac
  done < <(cat "$3"; echo)
}

# cuts_and_changes: of lines 'control HEX' and 'user HEX' each cut of a datagram of at most 400 octets, and what it is with an octet
# that is 0, 1 or 255. Lines of bodies are left out.
cuts_and_changes() {
  awk '$1 != "body" && length($2) <= 800 {
    for (n = 2; n <= length($2); n += 2) print $1, substr($2, 1, n)
    for (n = 1; n < length($2); n += 2) for (v = 0; v < 3; v++) print $1, substr($2, 1, n - 1) substr("0001ff", 2 * v + 1, 2) substr($2, n + 2)
  }'
}

# reports_to FILE: what a sanitizer finds in a program ends it with status 9, and is told in FILE.PID. A program that ends with
# status 1, or whose status is not looked at, is told of as well. (gcc's undefined behaviour sanitizer tells it on standard error.)
reports_to() {
  export ASAN_OPTIONS=detect_leaks=1:exitcode=9:log_path=$1 TSAN_OPTIONS=exitcode=9:log_path=$1
  export UBSAN_OPTIONS=halt_on_error=1:exitcode=9:log_path=$1
}

# no_reports FILE: a case, that no sanitizer has told anything.
no_reports() {
  if compgen -G "$1.*" > /dev/null; then fail "a sanitizer: $(cat "$1".* | head -20)"; else pass; fi
}

# finish: the last line, 'N passed, M failed', and the status.
finish() {
  printf '%s passed, %s failed\n' "$passed" "$failed"
  [ "$failed" -eq 0 ]
}
