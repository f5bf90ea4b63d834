#!/usr/bin/env bash
# What the launchers share: each runs its program in dist/ where that was made from the sources that stand here and runs on
# this machine. Otherwise it proves and builds the program, by builder.sh, where that is not done yet, and then runs it.
# The launcher that takes this in has set `top`, the folder of the repository.

launcher=${0##*/}
room=$top/.build
# Of the programs of dist/ the ones that were made for this processor and system, as bash names them (HOSTTYPE can come
# from the environment).
case ${BASH_VERSINFO[5]} in
  *-linux*) kind=${BASH_VERSINFO[5]%%-*}-linux ;;
  *) kind=${BASH_VERSINFO[5]} ;;
esac
stored=$top/dist/$kind

# The programs by their names in dist/: the crate of each, and the words with which it is run once behind its proof.
program_names=(glass glass-picture)
declare -A program_crate=([glass]=glass_program [glass-picture]=glass_picture)
declare -A program_words=(
  [glass]='draft data/batch.csv /dev/null'
  [glass-picture]='data/batch.csv data/defects.csv data/plan.csv /dev/null'
)

# ready NAME: sets `program` to what is to be run: the program of that name in dist/, or else what its crate is built as.
ready() {
  local why=''
  program=$stored/$1
  if ! is_stored "$1"; then
    program=$(built "$1")
    if ! is_built "$1"; then
      . "$top/builder.sh"
      prove_program "$1"
    fi
  fi
}

# built NAME: the file as which the program of that name is built here.
built() {
  echo "$top/crates/${program_crate[$1]}/out/${program_crate[$1]}"
}

# run WORDS..: runs the program that is ready. To its version the sum of the sources is added, which it cannot know.
run() {
  local said
  if [ "$#:$*" = 1:--version ]; then
    said=$("$program" --version) || exit
    echo "$said sources $sources"
  else
    exec "$program" "$@"
  fi
}

# is_stored NAME: whether the program of that name in dist/ is whole, was made from the sources that stand here, and runs
# on this machine. Sets `why` if not. That it was so on this machine is remembered with the look at the sources.
is_stored() {
  local said made note=$room/$1.stored
  if [ ! -f "$stored/$1" ] || [ ! -f "$top/dist/SUMS" ]; then
    why="dist/ has no program for this processor and system, $kind"
  elif ! look_at_sources; then
    why="the sources cannot be read"
  elif read -r made 2> /dev/null < "$note" && [ "$made" = "$look $HOSTNAME" ]; then
    return 0
  elif [ "$(sum_said sources)" != "$sources" ]; then
    why="the program in dist/ was made from other sources than stand here"
  elif made=$(sum_of "$stored/$1") && [ "$(sum_said "$kind/$1")" != "$made" ]; then
    why="the program in dist/ is not the one that dist/SUMS names"
  elif ! grep -qm1 '^flags.* sse4_2 .*popcnt' /proc/cpuinfo 2> /dev/null; then
    why="this processor lacks what the program in dist/ takes (x86-64-v2)"
  else
    # (where its C library is too old the system ends it with 1, which would say that a plan is stored: so it is tried)
    said=$("$stored/$1" --version 2>&1 < /dev/null) || true
    if [ "${said%% *}" = "$1" ]; then
      if [ -w "$room" ]; then
        echo "$look $HOSTNAME" > "$note.$$" && mv -f "$note.$$" "$note"
      fi
      return 0
    fi
    why="the program in dist/ does not run here (${said%%$'\n'*})"
  fi
  return 1
}

# sum_said NAME: the sum that dist/SUMS has of a program, or of the sources.
sum_said() {
  local sum name rest
  while read -r sum name rest; do
    if [ "$sum $name" = "# $1" ]; then
      echo "$rest"
    elif [ "$name" = "$1" ]; then
      echo "$sum"
    fi
  done < "$top/dist/SUMS"
}

sum_of() {
  local sum
  sum=$(sha256sum < "$1" 2> /dev/null) && echo "${sum%% *}"
}

# look_at_sources: sets `sources` to the sum of all that the programs are made from but the toolchain, and `look` to what
# tells this look from others. Both are remembered in a file of .build, if that can be written, as old as the look less a
# second, and taken from there while nothing changed since, in dist/ neither (by the times at which files and folders were
# changed, which no command sets back).
look_at_sources() {
  local file=$room/sources began=${EPOCHSECONDS:-$(date +%s)} parts=() new
  if ! { read -r sources && read -r look && read -ra parts; } 2> /dev/null < "$file" || has_changed; then
    list_parts
    sources=$(sum_parts) || return 1
    look=${EPOCHREALTIME:-$began}-$$
    if mkdir -p "$room" 2> /dev/null && new=$(mktemp "$file-XXXXXX" 2> /dev/null); then
      printf '%s\n' "$sources" "$look" "${parts[*]}" > "$new"
      touch -d "@$((began - 1))" "$new"
      chmod a+r "$new"
      mv -f "$new" "$file"
    fi
  fi
}

# has_changed: whether one of `parts` or dist/ has changed since the look that is remembered.
has_changed() {
  local part
  for part in "${parts[@]}"; do
    [ ! "$top/${part%/*}" -nt "$file" ] || return 0
  done
  [ -n "$(cd "$top" && { find crates.txt HANDLES dist "${parts[@]}" -cnewer "$file" -print -quit 2> /dev/null || echo gone; })" ]
}

# list_parts: sets `parts` to the folders of sources, definitions and proofs of both programs' crates and of those below
# them.
list_parts() {
  local names name part
  # (crates.txt names each crate behind those that it uses)
  names=$(
    tac "$top/crates.txt" | awk -F '[: ]+' '
      { sub(/#.*/, "") }
      $1 == "glass_program" || $1 == "glass_picture" || $1 in used { for (at = 2; at <= NF; at++) used[$at]; print $1 }'
  )
  parts=()
  for name in $names; do
    for part in src specs proofs; do
      [ ! -d "$top/crates/$name/$part" ] || parts+=("crates/$name/$part")
    done
  done
}

# sum_parts: the sum of the sums of crates.txt, HANDLES, and all files of `parts` in the order of their names, as
# b2sum -l 256 writes them at the top of the repository (sha256sum takes twice as long).
sum_parts() {
  local sum
  sum=$(
    set -o pipefail
    cd "$top"
    { printf '%s\0' crates.txt HANDLES && find "${parts[@]}" ! -type d -print0 | LC_ALL=C sort -z; } |
      xargs -0 b2sum -l 256 | b2sum -l 256
  ) 2> /dev/null && echo "${sum%% *}"
}

# is_built NAME: whether the program of that name was proved and built here, from the sources that stand here and by this
# toolchain.
is_built() {
  local file note=$room/$1.proved of kit made
  file=$(built "$1")
  [ -x "$file" ] && [ -f "$note" ] && look_at_sources || return 1
  { read -r of && read -r made && read -r kit; } < "$note" || return 1
  [ "$of" = "$sources" ] && [ "$made" = "$(sum_of "$file")" ] && [[ $(mark_kit) = @(|"$kit") ]]
}

# mark_kit: what tells one toolchain from another, at once (`rt version` takes a quarter of a second); nothing where there
# is none.
mark_kit() {
  local rt
  if rt=$(command -v rt); then
    stat -Lc '%s %Y %Z' "$rt"
  fi
}

is_terminal() {
  [ -t 2 ] && [ "${TERM:-dumb}" != dumb ]
}

# say WORDS: a line of its own on standard error.
say() {
  if is_terminal; then
    printf '\r\e[K' >&2
  fi
  echo "$launcher: $1" >&2
}
