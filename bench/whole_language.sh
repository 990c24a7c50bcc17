#!/usr/bin/env bash
# Times the shipped program on texts of the whole language, and prints the seconds and, where GNU time is there, the
# greatest memory in kilobytes. It is no test: nothing fails on a figure.
#
# - Reading: the last line of the text is left out, so it is read to its end and then refused.
# - Settling and searching: what settles from one decision, what has many nodes, and what has many solutions.
set -u
cd -- "$(dirname -- "${BASH_SOURCE[0]}")/.." || exit 1

here=.
. bin/program.sh
# This builds the program where it isn't built, which is not timed.
find_program || exit 1
room="$(mktemp -d)" || exit 1
trap 'rm -rf -- "$room"' EXIT

timed=(env)
if /usr/bin/time -v true >/dev/null 2>&1; then
  timed=(/usr/bin/time -v -o "$room/time")
fi

# Runs the program on a text, with its output to a file, and prints the seconds and the memory.
measure() {
  local what="$1" text="$2" begun ended memory='not measured'
  shift 2
  begun="$(date +%s%N)"
  "${timed[@]}" "$program" "$@" "$text" >"$room/printed"
  ended="$(date +%s%N)"
  if [ -s "$room/time" ]; then
    memory="$(awk -F': ' '/Maximum resident set size/ { print $2 }' "$room/time") kB"
  fi
  awk -v what="$what" -v ns="$((ended - begun))" -v memory="$memory" \
    'BEGIN { printf "%-58s %8.2f s  %s\n", what, ns / 1e9, memory }'
  tail -n 2 "$room/printed" | head -n 1 | sed 's/^/    /'
}

# 200,000 inequalities over 1,000 variables, without the last line.
inequalities() {
  printf 'MINION 3\n**VARIABLES**\n'
  awk 'BEGIN { for (i = 0; i < 1000; i++) printf "DISCRETE x%d {0..9}\n", i }'
  printf '**CONSTRAINTS**\n'
  awk 'BEGIN { for (i = 0; i < 200000; i++) printf "ineq(x%d,x%d,%d)\n", i % 1000, (i * 7 + 3) % 1000, i % 5 }'
}

# A tuple list of 4,000,000 cells, without the last line.
tuples() {
  printf 'MINION 3\n**TUPLELIST**\nt 1000000 4\n'
  awk 'BEGIN { for (i = 0; i < 1000000; i++) printf "%d %d %d %d\n", i % 10, i % 7, i % 5, i % 3 }'
  printf '**VARIABLES**\n'
}

# 10,000 inequalities in a chain, each greater than the one before, written forward or backward. One decision settles all.
chain() {
  printf 'MINION 3\n**VARIABLES**\nBOUND x[10001] {0..10001}\n**CONSTRAINTS**\n'
  awk -v way="$1" 'BEGIN { for (i = 0; i < 10000; i++) { j = way == "forward" ? i : 9999 - i; printf "ineq(x[%d],x[%d],-1)\n", j, j + 1 } }'
  printf 'w-literal(x[0],1)\n**EOF**\n'
}

# Two variables of a large span.
span() {
  printf 'MINION 3\n**VARIABLES**\nBOUND x {-1000000000..1000000000}\nBOUND y {-1000000000..1000000000}\n**CONSTRAINTS**\n'
  printf 'ineq(y,x,-1000000000)\nineq(x,y,1000000000)\nw-literal(x,1000000000)\n**EOF**\n'
}

# Eight queens, by inequalities.
queens() {
  printf 'MINION 3\n**VARIABLES**\nDISCRETE q[8] {0..7}\n**CONSTRAINTS**\nalldiff(q)\n'
  awk 'BEGIN { for (i = 0; i < 8; i++) for (j = i + 1; j < 8; j++) { d = j - i
    printf "watched-or({ineq(q[%d],q[%d],%d),ineq(q[%d],q[%d],%d)})\n", i, j, d - 1, j, i, -d - 1
    printf "watched-or({ineq(q[%d],q[%d],%d),ineq(q[%d],q[%d],%d)})\n", i, j, -d - 1, j, i, d - 1 } }'
  printf '**EOF**\n'
}

# 524,288 solutions of 22 values each.
solutions() {
  printf 'MINION 3\n**VARIABLES**\nBOOL x[19]\n**SEARCH**\nPRINT [[x,10,20,30]]\n**CONSTRAINTS**\n**EOF**\n'
}

inequalities >"$room/inequalities"
tuples >"$room/tuples"
chain forward >"$room/forward"
chain backward >"$room/backward"
span >"$room/span"
queens >"$room/queens"
solutions >"$room/solutions"

measure '200,000 ineq over 1,000 variables, read' "$room/inequalities"
measure 'a tuple list of 4,000,000 cells, read' "$room/tuples"
measure 'a chain of 10,000 ineq, forward' "$room/forward" -noprintsols
measure 'a chain of 10,000 ineq, backward' "$room/backward" -noprintsols
measure 'ineq on spans of 2,000,000,000' "$room/span"
measure '8 queens' "$room/queens" -noprintsols
measure '524,288 solutions of 22 values' "$room/solutions"
