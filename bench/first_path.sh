#!/usr/bin/env bash
# Times the shipped program on two kinds of text, and prints the seconds and, where GNU time is there, the greatest
# memory in kilobytes. It is no test: nothing fails on a figure.
#
# - Variables without constraints: each assignment is a solution, so this times enumerating and writing. Two variables
#   have four solutions, and stand beside twenty, which have 1,048,576, to compare the memory.
# - As many declarations and constraints as the language allows, and half of them. To enumerate 65,536 variables would
#   take for ever, so the line that ends the text is left out: the text is read to its end, and then refused.
set -u
cd -- "$(dirname -- "${BASH_SOURCE[0]}")/.." || exit 1

here=.
. bin/program.sh
# This builds the program where it isn't built, which is not timed.
find_program || exit 1
room="$(mktemp -d)" || exit 1
trap 'rm -rf -- "$room"' EXIT

heading() {
  printf 'MINION 3\n**VARIABLES**\n'
  awk -v n="$1" 'BEGIN { for (i = 0; i < n; i++) printf "BOOL x%d\n", i }'
  printf '**CONSTRAINTS**\n'
}

# A text of so many variables without constraints.
free_variables() {
  heading "$1"
  printf '**EOF**\n'
}

# A text of so many variables and four constraints for each, without its end.
many_lines() {
  heading "$1"
  awk -v n="$1" 'BEGIN {
    for (i = 0; i < 4 * n; i++) printf "%s(x%d,x%d)\n", i % 2 ? "diseq" : "eq", i % n, (i * 7 + 3) % n
  }'
}

# Runs the program on a text, with its output to a file or through a pipe, and prints the seconds and the memory.
measure() {
  local what="$1" text="$2" by="$3" begun ended memory='not measured'
  begun="$(date +%s%N)"
  if [ "$by" = pipe ]; then
    "${timed[@]}" "$program" -findallsols "$text" | cat >/dev/null
  else
    "${timed[@]}" "$program" -findallsols "$text" >"$room/printed"
  fi
  ended="$(date +%s%N)"
  if [ -s "$room/time" ]; then
    memory="$(awk -F': ' '/Maximum resident set size/ { print $2 }' "$room/time") kB"
  fi
  awk -v what="$what, to a $by" -v ns="$((ended - begun))" -v memory="$memory" \
    'BEGIN { printf "%-58s %8.2f s  %s\n", what, ns / 1e9, memory }'
}

timed=(env)
if /usr/bin/time -v true >/dev/null 2>&1; then
  timed=(/usr/bin/time -v -o "$room/time")
fi

free_variables 2 >"$room/two"
free_variables 20 >"$room/twenty"
many_lines 32768 >"$room/half"
many_lines 65536 >"$room/whole"

measure '2 variables, 4 solutions' "$room/two" file
measure '20 variables, 1,048,576 solutions' "$room/twenty" file
measure '20 variables, 1,048,576 solutions' "$room/twenty" pipe
measure '32,768 variables, 131,072 constraints, read' "$room/half" file
measure '65,536 variables, 262,144 constraints, read' "$room/whole" file
