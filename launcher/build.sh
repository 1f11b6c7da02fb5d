# shellcheck shell=bash disable=SC2154
# A part of the launcher: the program that is built from the sources that stand here. `here`, `program`, `say` and
# `fail` are the launcher's.

shopt -s nullglob

# Sets `program` to the one that was built here, which is built first where there is none or a source is newer.
find_built() {
  program=$here/crates/analyse_top/out/analyse_top
  is_current "$program" || build
}

# Whether the file is there, and no source is newer.
is_current() {
  local newer sources=("$here/crates.txt" "$here"/crates/*/src "$here"/crates/*/specs "$here"/crates/*/proofs)
  [ -x "$1" ] || return 1
  newer=$(command -p find "${sources[@]}" -newer "$1" -print -quit) || fail "find can't look at the sources"
  [ -z "$newer" ]
}

build() {
  local log=$here/crates/analyse_top/out/build.log progress status
  command -v rt >/dev/null || fail "the program isn't built, and there is no kit (rt) to build it with"
  say "building the program, which proves it and every crate below it first: 60 to 120 minutes where nothing is kept"
  mkdir -p "${log%/*}"
  touch "$log.begun" || fail "the log $log can't be written"
  show_progress "$log" &
  progress=$!
  # rt run proves, links and runs the program; without words it ends with status 4.
  (cd "$here/crates/analyse_top" && rt run) >"$log" 2>&1
  status=$?
  kill "$progress" 2>/dev/null
  if [ "$status" -ne 4 ] || [ ! -x "$program" ]; then fail "the build failed; see $log"; fi
  touch "$program"
}

# Says again and again how many of the crates below the program are proved.
show_progress() {
  local count proved
  count=$(find "$here"/crates/*/src/lib.rt | wc -l)
  while sleep 10; do
    proved=$(find "$here"/crates/*/out/rlib/stamp -newer "$1.begun" 2>/dev/null | wc -l)
    say "proved $proved of at most $count crates"
  done
}
