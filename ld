#!/usr/bin/env bash
# Runs the program `ld` with the arguments and the standard input that it is given. Where the program isn't built, or is
# older than its sources, it is proved and built first, by one call at a time; how far that is goes to standard error.
# The usage and the version are printed without it.
set -u
top=$(cd "$(dirname "${BASH_SOURCE[0]}")" && pwd) || exit 1
program=$top/crates/ld/out/ld
is_current() {
  [ -x "$program" ] && [ -z "$(find "$top/crates" "$top/crates.txt" \( -path '*/out' -o -path '*/ld_tests_*' \) -prune -o \
    \( -name '*.rt' -o -name '*.antt' -o -name crates.txt \) -newer "$program" -print -quit)" ]
}

# the program's own text, which it writes to standard error where its arguments are refused
print_usage() {
  sed -n '/^const USAGE: &str = "/,/";$/ { s/^const USAGE: &str = "//; s/";$//; s/^ld: \{0,1\}//; p; }' "$top/crates/ld/src/causes.rt" || exit 1
  printf '\ndocs/commands.md says what each command does, and with which statuses it ends.\n'
}

# the newest tag and what came behind it, or the commit
print_version() {
  printf 'ld %s\n' "$(git --git-dir="$top/.git" describe --tags --always 2> /dev/null || echo unreleased)"
}

# how many crates of how many are proved, and the time so far
say_progress() {
  local proved seconds=$((SECONDS - began))
  proved=$(grep -c '^[0-9:]* ld[a-z_]*: proved\|^\(crate\|library\) ld' "$built")
  [ "$proved" = "$said" ] && [ ! -t 2 ] && return
  said=$proved
  printf '%sld: %d of %d crates, %d:%02d so far%s' "$begin" "$proved" "$crates" $((seconds / 60)) $((seconds % 60)) "$end" >&2
}

# several crates side by side; with a kit that doesn't let them, one after the other: `rt run` also runs what it built, on
# the stored run, whose output is of no use here
prove_all() {
  "$top/tools/prove" ld
  local status=$?
  [ "$status" -ne 3 ] && return "$status"
  (cd "$top/crates/ld" && rt run -- replay < stdin)
}

prove_and_build() {
  local made=0
  crates=$(grep '^ld' "$top/crates.txt" | grep -vc '^ld_\(tests_\|rows\|served\)') said= began=$SECONDS begin= end=$'\n'
  if [ -t 2 ]; then begin=$'\r\e[K' end=; fi
  echo "ld: proving and building the program: some minutes, or most of an hour where nothing is proved here yet" >&2
  prove_all > "$built" 2>&1 {lock}<&- &
  while kill -0 $! 2> /dev/null; do
    say_progress
    sleep 2
  done
  wait $! || made=1
  [ -t 2 ] && echo >&2
  return $made
}

# Locks this file, so that of several calls one builds; the others wait, and find the program built.
build_once() {
  local lock built
  if ! command -v rt > /dev/null; then
    echo "ld: the program isn't built, and there is no \`rt\` to build it: put the Rattle kit's folder with it on the PATH (README.md, Build)" >&2
    exit 1
  fi
  exec {lock}< "${BASH_SOURCE[0]}"
  if ! flock --nonblock "$lock"; then
    echo "ld: another call is building the program: waiting for it" >&2
    flock "$lock"
  fi
  if ! is_current; then
    built=$(mktemp) || exit 1
    trap 'rm -f "$built"' EXIT
    if ! prove_and_build; then
      cat "$built" >&2
      echo "ld: the program wasn't built" >&2
      exit 1
    fi
    rm -f "$built"
    trap - EXIT
    touch "$program"
  fi
  exec {lock}<&-
}

case "${1-} ${2-}" in
  help\ * | -h\ * | --help\ * | *\ -h | *\ --help)
    print_usage
    exit
    ;;
  --version\ *)
    print_version
    exit
    ;;
esac
is_current || build_once
exec "$program" "$@"
