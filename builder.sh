#!/usr/bin/env bash
# How the programs are proved and built here, and compared with those of dist/. It is taken in behind launcher.sh.

# note_built NAME SOURCES: notes that the program was proved and built from the sources of that sum, which were looked at
# before, unless they changed meanwhile.
note_built() {
  look_at_sources
  if [ "$sources" = "$2" ]; then
    printf '%s\n' "$2" "$(sum_of "$(built "$1")")" "$(mark_kit)" > "$room/$1.proved.new"
    mv -f "$room/$1.proved.new" "$room/$1.proved"
  fi
}

# prove_program NAME: proves and builds the program of that name, one launcher at a time.
prove_program() {
  local before
  mkdir -p "$room" 2> /dev/null && [ -w "$room" ] ||
    fail "${why:+$why; }the program is not built yet, and $top, where it is built, cannot be written to: clone the repository into a folder of yours"
  exec 9> "$room/lock"
  if ! flock -n 9; then
    say "another launcher is building; waiting for it"
    flock 9
  fi
  if ! is_built "$1"; then
    look_at_sources || fail "the sources cannot be read"
    before=$sources
    build "${program_crate[$1]}" ${program_words[$1]}
    note_built "$1" "$before"
  fi
  exec 9>&-
}

# prove_both: proves and builds both programs here, where that is not done yet.
prove_both() {
  local name why=''
  for name in "${program_names[@]}"; do
    if is_built "$name"; then
      say "$name: proved and built here already, from these sources and by this toolchain"
    else
      # (what `build` notes of its crates is of one program)
      (prove_program "$name")
    fi
  done
}

# gate_both: rt ci, and the comparison with what it built. What it proved needs no other proof here.
gate_both() {
  local before name
  look_at_sources
  before=$sources
  rt ci
  mkdir -p "$room"
  for name in "${program_names[@]}"; do
    note_built "$name" "$before"
  done
  compare_both
}

# compare_both: compares dist/ with what was built here, says which program or sum is another one, and ends with 1 if one
# is.
compare_both() {
  local name kit status=0
  look_at_sources
  kit=$(rt version)
  for name in "${program_names[@]}"; do
    if ! cmp -s "$(built "$name")" "$stored/$name"; then
      say "dist/$kind/$name is another program than the one that was built here"
      status=1
    fi
    if [[ $("$(built "$name")" --version) != "$name "*" ${kit%% *}" ]]; then
      say "$name --version does not name the toolchain, ${kit%% *}"
      status=1
    fi
  done
  if [ "$(write_sums)" != "$(cat "$top/dist/SUMS" 2> /dev/null)" ]; then
    say "dist/SUMS is not of these programs, sources and toolchain"
    status=1
  fi
  if ((status == 0)); then
    echo "the same"
  else
    say "./prove --store puts what was built here into dist/"
  fi
  return $status
}

# store_both: puts both programs and their sums into dist/, the sums last.
store_both() {
  local name
  mkdir -p "$stored"
  for name in "${program_names[@]}"; do
    install -m 755 "$(built "$name")" "$stored/.$name.new"
    mv -f "$stored/.$name.new" "$stored/$name"
  done
  look_at_sources
  write_sums > "$top/dist/.SUMS.new"
  mv -f "$top/dist/.SUMS.new" "$top/dist/SUMS"
}

# write_sums: what dist/SUMS says of the programs that were built here, for `sha256sum -c`, which passes over lines with #.
write_sums() {
  local name
  for name in "${program_names[@]}"; do
    echo "$(sum_of "$(built "$name")")  $kind/$name"
  done
  echo "# sources $sources"
  echo "# kit $(rt version)"
}

# Of each crate that the program needs, itself among them: the libraries that it stands on, and the bytes to be proved on
# the longest way from it up to the program.
declare -gA below=() ahead=()
# Of each crate that is at work: its process, the folder of the copy in which it is proved, how many processors it has, and
# when it began, in seconds of this build. The crates that are proved.
declare -gA process=() place=() share=() since=() proved=()

build() {
  local program=$1 processors shown='' name
  command -v rt > /dev/null ||
    fail "${why:+$why; }the program is not built yet, and rt, the command of the Rattle toolchain, which builds it, is not on PATH: install it and try again"
  rm -rf "$room"/copy*
  set -m # a process group for each crate, so that all of it can be stopped
  trap 'fail "the build was stopped: start the same command again, and it goes on behind the crates that are proved"' INT TERM HUP
  SECONDS=0
  read_crates "$program"
  processors=$(count_processors)
  say "${why:+$why; }proving and building the program: ${#ahead[@]} crates, $processors side by side"
  while ((${#proved[@]} < ${#ahead[@]})); do
    start_ready "$@"
    tell
    sleep 0.2
    for name in "${!process[@]}"; do
      if ! kill -0 "${process[$name]}" 2> /dev/null; then
        finish "$name"
      fi
    done
  done
  trap - INT TERM HUP
  set +m
  rm -rf "$room"/copy*
  touch "$top/crates/$program/out/$program" # (rt leaves it as it is where nothing that it needs has changed)
  say "built in $(lasted $SECONDS)"
}

# read_crates PROGRAM: fills `below` and `ahead` from crates.txt, which names each crate behind those that it uses.
read_crates() {
  local line name library index listed=()
  while IFS= read -r line; do
    line=${line%%#*}
    name=${line%%[: ]*}
    if [ -n "$name" ]; then
      listed+=("$name")
      below[$name]=''
      # (the libraries that no line names are the toolchain's)
      for library in ${line#*:}; do
        if [ -n "${below[$library]+ours}" ]; then
          add_below "$name" ${below[$library]} "$library"
        fi
      done
    fi
  done < "$top/crates.txt"
  local -A bytes=()
  while read -r name index; do
    bytes[$name]=$index
  done < <(count_bytes)
  ahead[$1]=0
  for ((index = ${#listed[@]} - 1; index >= 0; index--)); do
    name=${listed[index]}
    if [ -n "${ahead[$name]:-}" ]; then
      ahead[$name]=$((ahead[$name] + ${bytes[$name]:-0}))
      for library in ${below[$name]}; do
        if ((${ahead[$library]:-0} < ahead[$name])); then
          ahead[$library]=${ahead[$name]}
        fi
      done
    fi
  done
}

# add_below CRATE LIBRARY..: adds libraries to those that the crate stands on, each once.
add_below() {
  local library
  for library in "${@:2}"; do
    if [[ " ${below[$1]} " != *" $library "* ]]; then
      below[$1]+=" $library"
    fi
  done
}

# count_bytes: of each crate its name, and the bytes of its sources, definitions and proofs.
count_bytes() {
  find "$top/crates" -path '*/out' -prune -o \( -name '*.rt' -o -name '*.antt' \) -printf '%P %s\n' |
    awk -F '[/ ]' '{ sum[$1] += $NF } END { for (name in sum) print name, sum[name] }'
}

# count_processors: how many processors to use, with 3 GB of free memory for each, which is what a large crate may take.
count_processors() {
  awk -v most="$(nproc)" '/^MemAvailable:/ { room = int($2 / 3000000) } END { print room < 1 ? 1 : room < most ? room : most }' /proc/meminfo
}

# start_ready PROGRAM WORDS..: starts crates whose libraries are proved, the longest way first, as long as processors are free. The longest way of all, which
# says how long the build takes, may use all processors beside others; where fewer crates wait than processors are free, they share these.
start_ready() {
  local name library part longest=0 ready=() free=$processors
  for name in "${!process[@]}"; do
    free=$((free - share[$name]))
    longest=$((ahead[$name] > longest ? ahead[$name] : longest))
  done
  for name in "${!ahead[@]}"; do
    if [ -z "${proved[$name]:-}${process[$name]:-}" ]; then
      for library in ${below[$name]}; do
        [ -n "${proved[$library]:-}" ] || continue 2
      done
      ready+=("${ahead[$name]} $name")
    fi
  done
  mapfile -t ready < <(((${#ready[@]} == 0)) || printf '%s\n' "${ready[@]}" | sort -rn)
  while ((free > 0 && ${#ready[@]} > 0)); do
    name=${ready[0]#* }
    part=$((free / ${#ready[@]} > 0 ? free / ${#ready[@]} : 1))
    start "$name" "$part" $((ahead[$name] > longest ? processors : part)) "$@"
    longest=$((ahead[$name] > longest ? ahead[$name] : longest))
    free=$((free - part))
    ready=("${ready[@]:1}")
  done
}

# start CRATE SHARE JOBS PROGRAM WORDS..: proves the crate beside this script by so many jobs, counted as this share of the processors, and makes its library,
# or the program, which it runs with the words.
start() {
  local name=$1 command=(lib --jobs "$3")
  share[$name]=$2
  since[$name]=$SECONDS
  if [ "$name" = "$4" ]; then
    command=(run --jobs "$3" -- "${@:5}")
    place[$name]=$top
  else
    take_place "$name"
  fi
  (cd "${place[$name]}/crates/$name" && exec rt "${command[@]}") > "$room/$name.log" 2>&1 < /dev/null 9>&- &
  process[$name]=$!
}

# take_place CRATE: a copy of the repository in which nothing else is at work, with what was proved so far of the crate and of the libraries below it. In one
# folder rt proves no two crates at a time that stand on one library.
take_place() {
  local name=$1 copy library number=0
  while copy=$room/copy$number && is_taken "$copy"; do
    number=$((number + 1))
  done
  place[$name]=$copy
  if [ ! -d "$copy" ]; then
    mkdir "$copy"
    tar -C "$top" --exclude='crates/*/out' -cf - crates crates.txt HANDLES | tar -C "$copy" -xf -
  fi
  for library in ${below[$name]}; do
    if [ ! -d "$copy/crates/$library/out" ]; then
      mkdir "$copy/crates/$library/out"
      cp -al "$top/crates/$library/out/rlib" "$copy/crates/$library/out/"
    fi
  done
  rm -rf "$copy/crates/$name/out"
  if [ -d "$top/crates/$name/out" ]; then
    mv "$top/crates/$name/out" "$copy/crates/$name/out"
  fi
}

# is_taken FOLDER: whether a crate is proved there.
is_taken() {
  local it
  for it in "${place[@]}"; do
    if [ "$it" = "$1" ]; then
      return 0
    fi
  done
  return 1
}

# leave_place CRATE: brings what was proved of the crate home.
leave_place() {
  if [ "${place[$1]}" != "$top" ] && [ -d "${place[$1]}/crates/$1/out" ]; then
    rm -rf "$top/crates/$1/out"
    mv "${place[$1]}/crates/$1/out" "$top/crates/$1/out"
  fi
  unset "place[$1]" "process[$1]"
}

# finish CRATE: takes note of a crate whose process has ended.
finish() {
  local status=0
  wait "${process[$1]}" || status=$?
  leave_place "$1"
  if ((status != 0)); then
    fail "the crate $1 could not be proved and built; $room/$1.log says why: put that right and start the same command again, which goes on from there"
  fi
  proved[$1]=yes
  if ! is_terminal; then
    say "${#proved[@]} of ${#ahead[@]} crates proved, $1 in $(lasted $((SECONDS - since[$1])))"
  fi
}

# tell: how far it is, on a terminal, in a line that is written over the last one.
tell() {
  local names line
  if is_terminal && [ "$shown" != "$SECONDS" ]; then
    shown=$SECONDS
    names=$(printf '%s\n' "${!process[@]}" | sort | paste -sd ' ')
    line="$launcher: ${#proved[@]} of ${#ahead[@]} crates proved, $(lasted "$SECONDS"), now $names"
    printf '\r\e[K%s' "${line:0:$(($(tput cols 2> /dev/null || echo 80) - 1))}" >&2
  fi
}

# lasted SECONDS: a time as people say it.
lasted() {
  if (($1 < 60)); then
    echo "$1 s"
  else
    echo "$(($1 / 60)) min $(($1 % 60)) s"
  fi
}

# fail WHY: stops what still runs, and ends with the status that tells that the program could not be built.
fail() {
  local name
  trap '' INT TERM HUP
  for name in "${!process[@]}"; do
    kill -- "-${process[$name]}" 2> /dev/null || true
  done
  for name in "${!process[@]}"; do
    wait "${process[$name]}" 2> /dev/null || true
    leave_place "$name"
  done
  rm -rf "$room"/copy* # (beside them rt ci would not run)
  say "$1"
  exit 70
}
