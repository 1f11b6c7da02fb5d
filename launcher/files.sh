# shellcheck shell=bash disable=SC2154
# A part of the launcher: which files a run would write, and whether one of them is its source or an input. `here`,
# `plain`, `source`, `source_size`, `fail` and `refuse` are the launcher's.

# Sets `path` to that of the file with an external name: what its word says, or else the name.
path_of() {
  local word name
  path=$1
  for word in "${plain[@]:1}"; do
    name=${word%%=*}
    [ "${name^^}" != "${1^^}" ] || path=${word#*=}
  done
}

# Ends with a refusal where the run would lose its source, or an input that is another file's too under another path.
# Of one path for two files the program says so itself.
refuse_lost_files() {
  local -x LC_ALL=C
  local listed mode name path other outputs=() paths=()
  [ -n "$source_size" ] || source_size=$(command -p stat -L -c %s -- "$source") || fail "stat can't look at $source"
  # the program refuses a longer one, before it looks at any other file
  [ "$source_size" -le 1048576 ] || return 0
  # a path that begins so is no assignment of awk's
  [[ $source = /* ]] || source=./$source
  listed=$(command -p awk -f "$here/launcher/files.awk" -- "$source") || fail "awk can't look for the files of $source"
  while IFS=$'\t' read -r mode name; do
    [ -n "$name" ] || continue
    path_of "$name"
    paths+=("$path")
    [ "$mode" = input ] || outputs+=("$path")
  done <<<"$listed"
  for path in "${outputs[@]}"; do
    [ -f "$path" ] || continue
    [ ! "$path" -ef "$source" ] || refuse "$path is the source itself, which the run would empty"
    for other in "${paths[@]}"; do
      [ "$other" = "$path" ] || [ ! "$other" -ef "$path" ] ||
        refuse "$path is $other, another file of the program, which the run would empty"
    done
  done
}
