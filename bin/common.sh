# What the commands share, which is all up to the program's end: the caller's words, the input, the build and the run; and, for those that run a sheet,
# how its answers are handed out. A fault anywhere is a line on standard error and status 2, so no command's own status ends the script. The command has
# set its `name`, and the `programs` that it runs.
set -u

say() { printf '%s: %s\n' "$name" "$1" >&2; }
fault() { say "$1"; exit 2; }

# A closed descriptor is opened on nothing, so that no file takes its place.
closed=
{ : 3>&2; } 2>/dev/null || exec 2>/dev/null
{ : 3<&0; } 2>/dev/null || { closed=1; exec </dev/null; }
{ : 3>&1; } 2>/dev/null || fault "standard output is closed"

root=$(dirname "$(dirname "$(readlink -f "${BASH_SOURCE[0]}")")")
folder=$(mktemp -d 2>/dev/null) || fault "no folder could be made in ${TMPDIR:-/tmp} for what the program writes"
trap 'rm -rf "$folder"' EXIT

# The caller's words: options up to `--`, and one file at most.
input="standard input" file= given= table= options=1
for word in "$@"; do
  case $options$word in
    1--) options=; continue ;;
    1-) continue ;;
    1-h | 1--help) printf '%s\n' "$usage" 2>/dev/null || fault "standard output could not be written"; exit 0 ;;
    1--table) [ "$name" = morning ] && { table=1; continue; } ;;&
    1-?*) fault "$word is no option; bin/$name --help says which there are" ;;
  esac
  [ -z "$given" ] || fault "$word is a second file, after $file; bin/$name takes one"
  given=1 file=$word input=$word
done

# The input is opened here, in the caller's folder and before anything is built.
if [ -n "$given" ]; then
  { exec <"$file"; } 2>"$folder/said" || { said=$(<"$folder/said"); fault "$input: ${said##*: }"; }
elif [ -n "$closed" ]; then
  fault "standard input is closed"
fi
[ ! -d /dev/stdin ] || fault "$input: is a directory"

# A program is built where it stands in its crate's out/ with its mark beside it, which it gets once it was proved and wrote its crate's stdout, and no
# source is newer than the mark. What `rt` leaves in an out/ is no source, nor is the time of a crate's folder, which an out/ changes.
is_built() {
  local newer made=$root/crates/$program/out/$program
  [ -x "$made" ] && [ -e "$made.ran" ] &&
    newer=$(find "$root"/crates/*/* "$root/crates.txt" \( -name must-fail -o -name out \) -prune -o -newer "$made.ran" -print -quit) && [ -z "$newer" ]
}
# Where one is not, `program` is the first such.
are_built() { for program in $programs; do is_built || return; done; }

# One run at a time builds, and the others wait for it. The mark takes the time at which the build began: what changes during it is newer. Up to the
# build's end an earlier mark is older than any source.
if ! are_built; then
  command -v rt >/dev/null 2>&1 || fault "not built yet, and the Rattle toolchain is missing: its command rt is not on the PATH"
  made=$root/crates/$program/out/$program
  if [ -x "$made" ] && [ -e "$made.ran" ]; then
    say "built before its sources: proving, some minutes"
  else
    say "not built yet: proving, some minutes"
  fi
  mkdir -p "$root/target" && exec 9>"$root/target/lock" && flock 9 || fault "not built: $root/target could not be written"
  for program in $programs; do
    ! is_built || continue
    crate=$root/crates/$program made=$root/crates/$program/out/$program
    touch "$root/target/lock"
    [ -x "$made" ] || rm -f "$made.ran"
    [ ! -e "$made.ran" ] || touch -d @0 "$made.ran"
    if ! (cd "$crate" && exec rt run) 2>"$folder/log" >"$folder/ran" <"$crate/stdin" 9>&-; then
      cat "$folder/log" >&2
      fault "not built: rt run did not end with 0 in crates/$program"
    fi
    cmp -s "$folder/ran" "$crate/stdout" || fault "not built: $program wrote something else of crates/$program/stdin than crates/$program/stdout has"
    touch -r "$root/target/lock" "$made.ran"
  done
  exec 9>&-
fi

# Runs a program on the input; its answers go to descriptor 3. It runs in a substitution, in which the shell adds no line of its own about a signal.
run() {
  local said status which="the program"
  [ "$1" = "$name" ] || which="the program $1"
  said=$(bash "$root/compare/program" "$1" 2>&1 >&3 3>&-)
  status=$?
  [ -z "$said" ] || printf '%s\n' "$said" >&2
  [ "$status" -ne 141 ] || fault "$input: standard output was closed before the last answer"
  [ "$status" -le 128 ] || fault "$input: $which was ended by signal $(kill -l "$status")"
  [ "$status" -eq 0 ] || fault "$input: $which ended with status $status"
  [ -z "$said" ] || fault "$input: $which met a fault"
}

# Hands out what was made of the kept answers of a sheet, by its name. For a sheet that breaks its form, which their first line says, it ends with 1.
hand_out() {
  local said first=
  { said=$(cat "$1" 2>&1 >&3 3>&-); } 3>&1 || fault "$input: $2 could not be written${said:+ (${said##*: })}"
  IFS= read -r first <"$folder/answers"
  case $first in
    "L 0") say "$input: too long: a sheet has at most 65,536 bytes"; exit 1 ;;
    "L "*) say "$input: line ${first#L } breaks the form"; exit 1 ;;
  esac
}
