# What ./register, ./convert and ./batch share, as functions: what is said where nothing can be done, the words of a call, the file that is read, the program with
# its version, and its building. A script sets `me`, the name of itself and of its program, and `here`, its folder, and calls `lay_out`.
# The gate takes memory_folder, open_folder, commit and note_version from here.

unwritten='standard output could not be written'

# fail TEXT..: nothing could be done.
fail() {
  printf '%s: %s\n' "$me" "$*" >&2
  exit 2
}

# misused TEXT: a mistake in the call.
misused() {
  fail "$1
$usage"
}

# hand_out TEXT [NAME]: a text to standard output. A reader that has gone wants no more of it, and that is no fault; a full device or a closed output is.
# Which of them it is, is asked after a failure, by one more line that cannot be written either.
hand_out() {
  local trouble=''
  printf '%s' "$1" 2>/dev/null && return
  { { trouble=$(LC_ALL=C; echo 2>&1 >&4); } 4>&1; } 2>/dev/null
  [[ $trouble == *'Broken pipe'* ]] || fail "${2:+$2: }$unwritten"
}

# Where things are. In a checkout the program is in target/bin and is built there. An installed script has all that it needs in ../lib/kodarfi, and builds nothing.
lay_out() {
  if [ -f "$here/crates.txt" ] && [ -d "$here/crates" ]; then
    is_installed=no program=$here/target/bin/$me texts=$here/docs
  elif [ -f "$here/../lib/kodarfi/command_line.sh" ]; then
    is_installed=yes program=$here/../lib/kodarfi/$me texts=$here/../lib/kodarfi
  else
    fail "$here is no checkout: leave the script where it is, and call it through a link or by its path"
  fi
}

# take_words WORD..: the words of a call. `file` becomes the name of the file, - for standard input; the script's own options go to its own_option.
take_words() {
  local word only_names=no names=()
  for word; do
    case $only_names$word in
      no--) only_names=yes ;;
      no-h | no--help) hand_out "$help"; exit 0 ;;
      no--version) hand_out "$me: $(version)"$'\n'; exit 0 ;;
      no-?*) own_option "$word" || misused "there is no option $word" ;;
      *) names+=("$word") ;;
    esac
  done
  [ ${#names[@]} -le 1 ] || misused "one file at a time"
  file=${names[0]--}
}

# Makes the file of the call standard input; `name` becomes what it is called in messages.
open_input() {
  if [ "$file" = - ]; then
    name='standard input'
    { : 3<&0; } 2>/dev/null || fail "$name is closed"
    [ ! -t 0 ] || echo "$me: reading $name to its end" >&2
  else
    name=${file//[[:cntrl:]]/?}
    [ -e "$file" ] || fail "$name: no such file"
    [ ! -d "$file" ] || fail "$name: a folder, not a file"
    { exec <"$file"; } 2>/dev/null || fail "$name: no right to read it"
  fi
  { : 3>&1; } 2>/dev/null || fail "$name: $unwritten"
}

# The sources: find's words for their names, so that an editor's own files are none, and for what is none: the folder out of a crate, which is the kit's. A script
# whose program is made of more than its own crate says so by `crate`, the crate that is proved for it, `beside`, the folders beside crates/ that are read, and
# make_program.
is_source=('(' -name '[!.#]*.rt' -o -name '[!.#]*.antt' -o -name '[!.#]*.[ch]' -o -name crates.txt ')')
of_kit=(-path 'crates/*/out' -prune)
crate=$me beside=()
make_program() {
  prove_program "$me"
}

# put FILE FOLDER: a copy of the file in the folder, whole or not at all.
put() {
  [ -f "$1" ] || { echo "rt: it has left no $1"; return 1; }
  mkdir -p "$2" && cp "$1" "$2/${1##*/}.new" && mv -f "$2/${1##*/}.new" "$2/${1##*/}"
}

# prove_program NAME: rt proves the program's crate with all that it depends on, builds the program and runs it, here on an empty input. It goes to target/bin.
prove_program() {
  (cd "crates/$1" && rt run </dev/null 2>&1 >/dev/null) && put "crates/$1/out/$1" target/bin
}

# prove_library: the same of the static library, which goes to target/staticlib.
prove_library() {
  (cd crates/kodarfi && rt lib </dev/null 2>&1) && put crates/kodarfi/out/libkodarfi.a target/staticlib
}

# link_batch PROGRAM: the program of ./batch from its sources and the library, once that is proved.
link_batch() {
  mkdir -p target/bin && cc -std=c11 -O2 -Iinclude programs/batch/*.c target/staticlib/libkodarfi.a -o "$1.new" && mv -f "$1.new" "$1"
}

# The names of all sources, as one number.
names_digest() {
  (cd "$here" && find crates.txt crates "${beside[@]}" "${of_kit[@]}" -o -type f "${is_source[@]}" -print | LC_ALL=C sort | sha256sum | cut -d ' ' -f 1)
}

# Prints a fresh folder in memory that others may pass through, where there is one with $1 gigabytes of room from which programs can be run.
memory_folder() {
  local folder room
  room=$(df -Pk /dev/shm 2>/dev/null | awk 'NR == 2 { print $4 }')
  [ "${room:-0}" -ge $(($1 * 1024 * 1024)) ] && folder=$(mktemp -d -p /dev/shm 2>/dev/null) || return
  if chmod 1777 "$folder" && printf '#!/bin/sh\n' >"$folder/probe" && chmod 755 "$folder/probe" && "$folder/probe" 2>/dev/null; then
    rm "$folder/probe"
    echo "$folder"
  else
    rm -rf "$folder"
  fi
}

# Prints $TMPDIR where every user can pass through it, else /tmp: what root's rt has built, it runs as nobody.
open_folder() {
  local folder
  folder=$(readlink -f -- "${TMPDIR:-/tmp}")
  while [[ $(stat -c %a -- "$folder" 2>/dev/null) == *[1357] ]]; do
    [ "$folder" != / ] || { echo "${TMPDIR:-/tmp}"; return; }
    folder=${folder%/*}
    folder=${folder:-/}
  done
  echo /tmp
}

# The commit that is checked out here, with -dirty where a source is not the commit's; unknown where this is no clone or there is no git.
commit() {
  local commit changed git=(env -u GIT_DIR -u GIT_WORK_TREE -u GIT_INDEX_FILE git -C "$here")
  [ "$("${git[@]}" rev-parse --show-toplevel 2>/dev/null)" = "$here" ] && commit=$("${git[@]}" rev-parse --short HEAD 2>/dev/null) || { echo unknown; return; }
  changed=$("${git[@]}" status --porcelain --untracked-files=all -- crates.txt ':(glob)crates/**/[!.#]*.rt' ':(glob)crates/**/[!.#]*.antt' "${beside[@]}" 2>/dev/null) || changed=yes
  echo "$commit${changed:+-dirty}"
}

# note_version PROGRAM COMMIT: writes what a program was built from, and by which kit, beside it, with its own digest, so that nothing is claimed of another program.
note_version() {
  local kit number=''
  kit=$(rt version 2>/dev/null) || kit=unknown
  [ ! -f "$here/VERSION" ] || number=$(head -n 1 "$here/VERSION")
  {
    printf '%scommit %s, kit %s\n' "${number:+version $number, }" "$2" "$kit" && digest "$1" && names_digest
  } >"$1.version.new" 2>/dev/null && mv -f "$1.version.new" "$1.version" || rm -f "$1.version.new" "$1.version"
}

digest() {
  sha256sum <"$1" | cut -d ' ' -f 1
}

# noted LINE: a line of what was written beside the program; nothing where that is of another program.
noted() {
  local lines=()
  { mapfile -t lines <"$program.version"; } 2>/dev/null
  [ ${#lines[@]} -eq 3 ] && [ "${lines[1]}" = "$(digest "$program" 2>/dev/null)" ] && echo "${lines[$1]}"
}

# What the program was built from, and by which kit.
version() {
  if [ ! -f "$program" ]; then
    echo "commit unknown, kit unknown: the program is not built yet"
  else
    noted 0 || echo "commit unknown, kit unknown: the program was not built by ./$me"
  fi
}

# Why the program has to be built; nothing where it is good. A folder's time is that of its last name: where one is newer, a source may have come or gone.
reason_to_build() {
  local newer names
  if [ ! -x "$program" ]; then
    echo "the program is not built"
  elif [ $is_installed = no ]; then
    newer=$(cd "$here" && find crates.txt crates "${beside[@]}" "${of_kit[@]}" -o -newer "$program" '(' -type d -printf '%p/\n' -o "${is_source[@]}" -print -quit ')') || newer='a source that cannot be read'
    newer=${newer##*$'\n'}
    if [[ $newer == */ ]]; then
      if names=$(noted 2); then
        [ "$names" != "$(names_digest)" ] || return
      elif ! command -v rt >/dev/null 2>&1; then
        return
      fi
    fi
    [ -z "$newer" ] || echo "$newer is newer than the program"
  fi
}

# How many crates are proved for the program: it and what it depends on.
count_crates() {
  awk -v wanted="$crate" '
    /^[a-z]/ { name = $1; sub(/:.*/, "", name); sub(/^[^:]*:/, ""); needs[name] = $0 }
    function walk(name,    count, part, k) {
      if (name in seen || !(name in needs)) return
      seen[name] = 1; all++
      count = split(needs[name], part, " ")
      for (k = 1; k <= count; k++) walk(part[k])
    }
    END { walk(wanted); print all }' "$here/crates.txt"
}

# show_progress: of what rt says, a line for each crate that is proved, one for a crate that is not, and what else it has to say about crates.
show_progress() {
  local line count=0 all of=$crate
  all=$(count_crates)
  while IFS= read -r line; do
    case $line in
      'crate '*': modules '*) of=${line#crate } of=${of%%:*} ;;
      'logic=proved '*) count=$((count + 1)); echo "$me: $count of $all crates" >&2 ;;
      'logic='*) echo "$me: $of is not proved" >&2 ;;
      'rt: chose '* | 'rt: note: '* | 'rt: rt '* | 'rt: running '* | 'rt: '*': begins with '*) ;;
      'rt: '*) printf '%s\n' "$line" >&2 ;;
    esac
  done
}

# Builds the program, one at a time: whoever waited for the lock looks again. It gets the time at which its building
# began, so that a source that was changed meanwhile is newer; where the building failed, the one before stays.
build() {
  local reason=$1 began from
  command -v rt >/dev/null 2>&1 || fail "$reason, and the tool 'rt' that builds it is missing$([ ! -x "$program" ] || echo '; with KODARFI_AS_BUILT=1 in the environment it is taken as it was built')"
  mkdir -p "$here/target" 2>/dev/null
  [ -w "$here/target" ] || fail "$reason, and there is no right to write to $here/target"
  exec 3<"$here/crates.txt"
  if ! flock -n 3; then
    echo "$me: $reason, and another call is building here: waiting for it" >&2
    flock 3 || fail "$reason, and the lock for building it cannot be had"
  fi
  reason=$(reason_to_build)
  if [ -n "$reason" ]; then
    echo "$me: $reason: building it, which takes some minutes" >&2
    began=$(date +%s.%N) from=$(commit) memory=$(memory_folder 2)
    trap '[ -z "$memory" ] || rm -rf "$memory"' EXIT
    if ! (set -o pipefail; cd "$here" && TMPDIR=${memory:-$(open_folder)} make_program 3<&- | show_progress); then
      fail "$reason, and building it failed: 'rt check' in $here/crates/$crate tells more"
    fi
    [ -x "$program" ] || fail "the program was not built; remove the folder $here/target and try again"
    [ "$from" = "$(commit)" ] || from=${from%-dirty}-dirty
    note_version "$program" "$from"
    touch -d "@$began" "$program" 2>/dev/null
    [ -z "$memory" ] || rm -rf "$memory"
    trap - EXIT
  fi
  exec 3<&-
}

# Sees to it that there is a program. With KODARFI_AS_BUILT it is the one that is there, and that is said where a source is newer.
need_program() {
  local reason
  reason=$(reason_to_build)
  if [ -z "$reason" ]; then
    return
  elif [ "$is_installed" = yes ]; then
    fail "there is no program $program: install it again"
  elif [ -x "$program" ] && [ -n "${KODARFI_AS_BUILT-}" ]; then
    [ "$KODARFI_AS_BUILT" = silent ] || echo "$me: $reason; KODARFI_AS_BUILT takes it as it was built" >&2
  else
    build "$reason"
  fi
}

# ask [COMMAND..]: what the program says, on both outputs, and how it ended, of standard input or of what a command prints. It has no exit status of its own.
ask() {
  said=$(
    if [ $# -eq 0 ]; then
      "$program" 2>&1
      ended=$?
    else
      "$@" | "$program" 2>&1
      statuses=("${PIPESTATUS[@]}")
      ended=$((statuses[0] ? 3 : statuses[1]))
    fi
    printf .
    exit "$ended"
  )
  ended=$?
  said=${said%.}
}

# The program gave no answer: fails with what it said, where that is its own complaint.
fail_unanswered() {
  if [[ $said == "$me: "* ]]; then
    said=${said#"$me: "}
    fail "$name: ${said%$'\n'}"
  elif [ $is_installed = yes ]; then
    fail "$name: the program gave no answer (its status is $ended); install it again"
  else
    fail "$name: the program gave no answer (its status is $ended); remove the folder $here/target and try again"
  fi
}
