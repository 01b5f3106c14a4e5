# Sourced by ./sheet and ./board, which run with pipefail: the proved program, its input and its start, and words for what is
# not an input. `here` is the repository and `me` the name of the script.

tell() { echo "$me: $*" >&2; }

# fail STATUS WORD..: tells it and ends.
fail() {
  local status=$1
  shift
  tell "$@"
  exit "$status"
}

# program NAME: where the proved program of a crate stands once it is built.
program() { echo "$here/crates/$1/out/$1"; }

# prove NAME: proves and builds a program where that has not been done, and says which of how many crates it is proving.
# What is proved already is not told.
prove() {
  local crates number=0 count name next
  crates=$(rests_on "$1" | cut -d: -f1)
  built "$1" "$crates" && crates=$1
  count=$(wc -l <<<"$crates")
  [ -e "$(program "$1")" ] || tell "proving $count crates; some minutes the first time"
  for name in $crates; do
    number=$((number + 1))
    (cd "$here/crates/$name" && rt "$([ "$name" = "$1" ] && echo run || echo lib)") </dev/null >"$scratch/proving" 2>&1 || {
      grep '^rt: ' "$scratch/proving" | sed "s/^rt: /$me: /" >&2
      fail 1 "the program could not be proved and built; 'rt check' in crates/$name says why"
    }
    next=$(sed -n "$((number + 1))p" <<<"$crates")
    ! grep -q '^logic=proved' "$scratch/proving" || tell "proved $number of $count: $name${next:+; now: $next}"
  done
}

# built NAME CRATES: is the program newer than all that it is made from? Then one `rt run` sees whether it still is what it was.
built() {
  local made folders=()
  made=$(program "$1")
  [ -e "$made" ] || return 1
  for name in $2; do folders+=("$here/crates/$name"); done
  [ -z "$(find "$here/crates.txt" "${folders[@]}" -name out -prune -o -newer "$made" -print -quit)" ]
}

# rests_on NAME: a crate and those it rests on, a line for each: NAME: those it rests on
rests_on() {
  awk -F: -v name="$1" '
    /^#/ || !NF { next }
    { order[++count] = $1; needs[$1] = $2 }
    function want(crate, names, number, i) {
      if (!(crate in needs) || crate in wanted) return
      wanted[crate] = 1
      number = split(needs[crate], names, " ")
      for (i = 1; i <= number; i++) want(names[i])
    }
    END { want(name); for (i = 1; i <= count; i++) if (order[i] in wanted) print order[i] ":" needs[order[i]] }' "$here/crates.txt"
}

# run_program NAME: the proved program, from standard input to standard output. It is for x86-64; elsewhere it runs under
# an emulator. It ends with status 0 whatever happens, so its words on standard error tell. Where nobody reads the output any
# more, which is no one's fault, cat is ended by that; the program would complain.
run_program() {
  local way=() tools told ended=()
  if [ "$(uname -m)" != x86_64 ]; then
    tools=$(dirname "$(rt doc)")/toolchain
    way=("$tools/bin/qemu-x86_64" "$tools/lib/ld-linux-x86-64.so.2" --library-path "$tools/lib")
  fi
  told=$scratch/told
  { "${way[@]}" "$(program "$1")" 2>"$told" | cat 2>/dev/null; ended=("${PIPESTATUS[@]}"); } || true
  [ "${ended[1]}" -ne 141 ] || exit 141
  [ "${ended[0]}" -eq 0 ] || fail 1 "$1 ended with status ${ended[0]}"
  [ "${ended[1]}" -eq 0 ] || fail 1 "standard output cannot be written"
  [ ! -s "$told" ] || { cat "$told" >&2; exit 1; }
}

# make_scratch: a folder that goes when the script ends.
make_scratch() {
  scratch=$(mktemp -d)
  trap 'rm -rf "$scratch"' EXIT
}

# take FILE: sets `input` to a file that can be read more than once, and `name` to what it is called; '-' is standard input,
# and pipes are read.
take() {
  name=$1
  if [ "$name" = - ]; then
    [ ! -t 0 ] || tell "reading from the terminal; Ctrl-D ends it"
    [ ! -d /dev/stdin ] || fail 1 "standard input is a folder, not a file"
    cat >"$scratch/input" || fail 1 "standard input cannot be read"
    input=$scratch/input name="standard input"
  elif [ -d "$name" ]; then
    fail 1 "$name is a folder, not a file"
  elif [ ! -e "$name" ]; then
    fail 1 "there is no file $name"
  elif [ ! -r "$name" ]; then
    fail 1 "$name cannot be read: permission denied"
  elif [ -f "$name" ]; then
    input=$name
  else
    cat "$name" >"$scratch/input" || fail 1 "$name cannot be read"
    input=$scratch/input
  fi
}

# is_text FILE: does it begin like a text of records, and have no bytes that no text has?
is_text() {
  local odd first
  odd=$(head -c 65536 "$1" | LC_ALL=C tr -d '\t\r\n\f\40-\176\200-\377' | wc -c)
  first=$(head -c 65536 "$1" | LC_ALL=C tr -d '\0' | LC_ALL=C sed -e $'1s/^\xef\xbb\xbf//' -e 's/#.*//' 2>/dev/null | LC_ALL=C awk 'NF { print $1; exit }')
  [ "$odd" -eq 0 ] && case "$first" in bounds | keepout | lay | ask | takeout | undo | bytes | draw) true ;; *) false ;; esac
}
