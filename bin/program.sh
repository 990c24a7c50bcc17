# Which program is run, and whether it is that of the sources that stand here. `./minion`, `./build`, `.ci/run` and bench/
# read this file, after they set `here` to the folder of the repository.
#
# There are two programs: the shipped one, bin/minion, which is committed, and the one that was built here. Beside the
# shipped one, bin/minion.sources says by which toolchain it was proved and built, and has two checksums: one over all that
# it is built from, and one over the program itself. Where both fit what stands here, it is the program of these sources.

shipped="$here/bin/minion"
shipped_from="$here/bin/minion.sources"
built="$here/crates/minion/out/minion"
# Is there where both checksums fitted, and is dated to the time before that was looked at.
looked="$here/out/looked"

complain() {
  printf 'minion: %s\n' "$*" >&2
}

# Whether nothing that a program is built from, and no other file that is named, changed after the first file did. What is
# compared is the time of the change itself, which can't be set back: a source that was moved here with its old date
# counts, and so does a folder from which one was taken.
is_newest() {
  [ -e "$1" ] || return 1
  newest="$1"
  shift
  newer="$(find "$here/crates.txt" "$here/HANDLES" "$here"/crates/*/src "$here"/crates/*/specs "$here"/crates/*/proofs "$@" -cnewer "$newest" -print -quit)" && [ -z "$newer" ]
}

# A crate and all that it stands on, each after those below it. The program is the crate minion.
needed_crates() {
  awk -v top="$1" '
    { sub(/#.*/, "") }
    split($0, part, ":") > 1 { split(part[1], word, " "); below[word[1]] = part[2] }
    function take(name, names, count, i) {
      if (!(name in below) || name in taken) return
      taken[name]
      count = split(below[name], names, " ")
      for (i = 1; i <= count; i++) take(names[i])
      print name
    }
    END { take(top) }
  ' "$here/crates.txt"
}

# The files that the program is built from, as seen from the repository's folder, in order.
sources() {
  printf '%s\n' crates.txt HANDLES
  {
    needed_crates minion | sed 's/$/ is needed/'
    (cd -- "$here" && find crates/*/src crates/*/specs crates/*/proofs -type f)
  } | awk '/ is needed$/ { needed[$1]; next } { split($0, part, "/"); if (part[2] in needed) print }' | LC_ALL=C sort
}

# One checksum over the names and the bytes of all that the program is built from.
sources_sum() {
  (cd -- "$here" && sources | xargs -d '\n' sha256sum -- | sha256sum | cut -d ' ' -f 1)
}

# The checksum of a program.
program_sum() {
  sha256sum <"$1" | cut -d ' ' -f 1
}

# What bin/minion.sources says of one thing.
said_of() {
  sed -n "s/^$1: //p" "$shipped_from"
}

# Whether the shipped program is that of the sources that stand here.
fits() {
  [ -x "$shipped" ] && [ -r "$shipped_from" ] || return 1
  [ "$(said_of sources)" = "$(sources_sum)" ] && [ "$(said_of program)" = "$(program_sum "$shipped")" ]
}

# As `fits`, and remembers it, so that the next look is short. Where nothing can be written, each look is a long one.
fits_from_now_on() {
  begun="$(date -d '1 second ago' +%s.%N)"
  fits || return 1
  if mkdir -p -- "$here/out" 2>/dev/null && [ -w "$here/out" ]; then
    touch -d "@$begun" -- "$looked.$$" && mv -f -- "$looked.$$" "$looked"
  fi
  return 0
}

# Sets `program` to the one that is to be run. Where there is none of these sources, it is proved and built first.
find_program() {
  program="$shipped"
  is_newest "$looked" "$here/bin" && return 0
  program="$built"
  [ -x "$built" ] && is_newest "$built" && return 0
  program="$shipped"
  fits_from_now_on && return 0
  program="$built"
  complain 'the shipped program is not that of the sources that stand here, so these are proved and built first'
  "$here/build" >&2
}
