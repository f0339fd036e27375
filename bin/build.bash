# For the commands of this folder, which source it: whether a program is built, and its building. They say in `top`
# where the tree is, in `crate` whose program it is, and in `command` by which name they speak.
take_crate() { crate=$1 program=$top/crates/$1/out/$1; }

take_crate "$crate"

# Whether the program stands there, and no source is newer.
is_built() {
  [ -x "$program" ] && [ -z "$(find "$top/crates.txt" "$top/crates" -name out -prune -o \
    -type f \( -name '*.rt' -o -name '*.antt' -o -name crates.txt \) -newer "$program" -print -quit)" ]
}

# A line for each crate below the program's: its name, and then all crates of the tree below it. Those come first with
# which the longest chain of lines begins that is still to be proved, so each behind those below it.
crates_below() {
  awk -v top="$crate" '
    function visit(name, i, count, names) {
      if (!(name in uses) || name in seen) return
      seen[name]
      count = split(uses[name], names)
      for (i = 1; i <= count; i++) { visit(names[i]); take(name, names[i]) }
      order[++last] = name
    }
    function take(name, other, i, count, names) {
      count = other in uses ? split(other within[other], names) : 0
      for (i = 1; i <= count; i++)
        if (!index(within[name] " ", " " names[i] " ")) within[name] = within[name] " " names[i]
    }
    # From the top down, so that what stands on a crate has its own length by then.
    function rise(name, i, count, names) {
      length_from[name] += lines[name] + 1
      count = split(uses[name], names)
      for (i = 1; i <= count; i++)
        if (length_from[names[i]] < length_from[name]) length_from[names[i]] = length_from[name]
      if (name != top) print length_from[name], name within[name]
    }
    FNR == NR { lines[$1] = $2; next }
    { sub(/#.*/, "") }
    /:/ { split($0, sides, ":"); split(sides[1], words); uses[words[1]] = sides[2] }
    END { visit(top); for (; last; last--) rise(order[last]) }' <(line_counts) "$top/crates.txt" |
    sort -rns -k 1,1 | cut -d ' ' -f 2-
}

# How many lines each crate of the tree has to be proved.
line_counts() {
  local folder
  for folder in "$top"/crates/*; do
    echo "${folder##*/} $(find "$folder" -name out -prune -o \( -name '*.rt' -o -name '*.antt' \) -exec cat {} + | wc -l)"
  done
}

# Calls rt in a crate's folder below this one, with so much niceness, which proves that crate, and tells that it did.
# What rt says is kept below `logs`. Without niceness it is a crate that all else waits for, and takes all processors.
prove() {
  local jobs=()
  [ "$4" != 0 ] || [ "$(room_for)" -lt "$(nproc)" ] || jobs=(--jobs "$(nproc)")
  # With an exit, so that what bash says of a run that is killed goes into the log too.
  (cd "$1/crates/$2" && nice -n "$4" rt "$3" "${jobs[@]}"; exit $?) >"$logs/$2" 2>&1 </dev/null
  local status=$?
  if grep -q "^crate $2:" "$logs/$2"; then echo "$command: proved $2" >&2; fi
  return $status
}

# Says of a crate whose run of rt ended with this status where its log is.
tell_failure() {
  tail -n 40 "$logs/$1" >&2
  if [ "$2" -gt 128 ]; then
    echo "$command: rt was killed by signal $(($2 - 128)), maybe for want of memory; call again to go on" >&2
  fi
  echo "$command: not built; the whole log is $logs/$1" >&2
  return 1
}

# The lines of crates.txt that are these crates': rt wants a folder for each that it finds there.
lines_of() {
  awk -v names=" $* " 'split($0, words, /[ :]/) && index(names, " " words[1] " ")' "$top/crates.txt"
}

# Builds the library of the first crate named, with so much niceness; the others are all that stand below it. Two runs
# of rt with a crate in common wait for each other, so each has a tree of its own, of links to the files of this one.
# What it made comes back.
library() {
  local niceness=$1
  shift
  local tree=$beside/$1 name status
  # Bash lets what runs beside it ignore an interrupt.
  trap - INT
  mkdir -p "$tree/crates" && lines_of "$@" >"$tree/crates.txt" || return 1
  for name; do cp -al "$top/crates/$name" "$tree/crates" || return 1; done
  prove "$tree" "$1" lib "$niceness"
  status=$?
  rm -rf "$top/crates/$1/out"
  [ ! -d "$tree/crates/$1/out" ] || mv "$tree/crates/$1/out" "$top/crates/$1" || status=1
  [ $status = 0 ] || tell_failure "$1" $status || return 1
  touch "$tree/done"
}

# How many runs of rt there is memory for, each of up to four gigabytes.
room_for() { awk '/^MemAvailable:/ { print int($2 / 4e6) }' /proc/meminfo; }

# How many libraries are built at once: a run of rt keeps two processors busy.
most_at_once() {
  local room
  room=$(room_for)
  echo $((room < $(nproc) * 3 / 4 ? room : $(nproc) * 3 / 4))
}

# Builds the libraries below the program. Each begins when those below it are there, and none behind one that failed. It
# leaves the processors to those before it in the order: the longest chain is what all waits for.
libraries() {
  local -A below=() begun=()
  local order=() name names most running=0 status=0 niceness
  most=$(most_at_once)
  while read -r name names; do order+=("$name") below[$name]=$names; done < <(crates_below)
  while :; do
    niceness=0
    for name in "${order[@]}"; do
      if [ -z "${begun[$name]-}" ]; then
        { [ $running = 0 ] || [ $running -lt "$most" ]; } && are_there ${below[$name]} || continue
        begun[$name]=yes running=$((running + 1))
        library $niceness "$name" ${below[$name]} &
      fi
      [ -e "$beside/$name/done" ] || niceness=10
    done
    [ $running -gt 0 ] || return $status
    wait -n || { status=1 order=(); }
    running=$((running - 1))
  done
}

are_there() {
  local name
  for name; do [ -e "$beside/$name/done" ] || return 1; done
}

# Ends where the toolchain isn't there.
need_toolchain() {
  command -v rt >/dev/null && return
  echo "$command: it isn't built yet, and rt, the command of the Rattle toolchain, isn't on the path; see README.md" >&2
  exit 70
}

# Proves and builds the program, of which this is said. Each library below it is built by itself: where one is missing
# below a crate rt goes over all sources first, which takes it a minute at the program's.
build() {
  need_toolchain
  echo "$command: proving and building $1" >&2
  local logs beside
  logs=$(mktemp -d) || exit 70
  # One build at a time in this tree. The one that was waited for may have been this program's.
  exec 9<"$top/crates" && flock 9
  is_built && { exec 9<&-; rm -r "$logs"; return; }
  # An older program is no sign that this build succeeds.
  rm -f "$program"
  beside=$top/crates/$crate/out/beside
  rm -rf "$beside" && mkdir -p "$beside" || exit 70
  libraries || exit 70
  rm -r "$beside"
  echo "$command: proving and building the program itself, some minutes more" >&2
  # Without words the program ends at once, by a status of its own.
  prove "$top" "$crate" run 0
  local status=$?
  { [ -x "$program" ] && grep -q '^logic=proved' "$logs/$crate"; } || { tell_failure "$crate" $status; exit 70; }
  touch "$program"
  exec 9<&-
  rm -r "$logs"
}
