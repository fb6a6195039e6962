# The parts of tests/registry, as functions for .ci/run and tests/run: read, run by one rule, and added up. A script sets `me` and `logs`, a folder, and has
# scripts/command_line.sh.

# Reads the registry: `parts` gets a line for each part, its fields divided by tabs, `names` their names, and `builds` a line for each thing that is built.
read_registry() {
  local wrong
  wrong=$(awk -F ' +[|] +' '
    /^(#|$)/ { next }
    NF != (/^built / ? 3 : 6) || seen[$1]++ { print NR; exit }
    /^built / { built[substr($1, 7)]; next }
    { count = split($4, words, " "); for (k = 1; k <= count; k++) if (words[k] != "-" && !(words[k] in built)) { print NR; exit } }' tests/registry 2>/dev/null) ||
    fail "tests/registry cannot be read"
  [ -z "$wrong" ] || fail "tests/registry: line $wrong has not the fields that its head names, a name for the second time, or something built that no line before it names"
  mapfile -t parts < <(awk -F ' +[|] +' -v OFS='\t' '!/^(#|$|built )/ { $1 = $1; print }' tests/registry)
  names=("${parts[@]%%$'\t'*}")
  mapfile -t builds < <(awk -F ' +[|] +' -v OFS='\t' '/^built / { sub(/^built /, ""); $1 = $1; print }' tests/registry)
}

# lacking TOOLS BUILT: what a part cannot do without and is not there, and how it comes; nothing where all is.
lacking() {
  local tool built name files command file
  for tool in $1; do
    command -v "$tool" >/dev/null 2>&1 || { echo "the tool '$tool' is missing"; return; }
  done
  for built in ${2#-}; do
    while IFS=$'\t' read -r name files command; do
      for file in $files; do
        [ "$name" != "$built" ] || [ -e "$file" ] || { echo "$file is not built: '$command' builds it"; return; }
      done
    done < <(printf '%s\n' "${builds[@]}")
  done
}

# judge NAME STATUS: sets `passed` and `failed` from the last line of a part's log, and `said` where that line or the status is wrong.
judge() {
  local last
  last=$(tail -n 1 "$logs/$1.log" 2>/dev/null)
  if [[ ! $last =~ ^([0-9]+)\ passed,\ ([0-9]+)\ failed$ ]]; then
    said="no closing line 'N passed, M failed' ($([ "$2" -le 128 ] && echo "exit status $2" || echo "killed by signal $(($2 - 128))"))"
    return
  fi
  passed=${BASH_REMATCH[1]} failed=${BASH_REMATCH[2]}
  if [ "$failed" -gt 0 ] && [ "$2" -eq 0 ]; then
    said="$failed failed, and its exit status is 0"
  elif [ "$failed" -eq 0 ] && { [ "$2" -ne 0 ] || [ "$passed" -eq 0 ]; }; then
    failed=1 said="no failure in its closing line, with $passed passed and exit status $2"
  fi
}

# part NAME TOOLS BUILT COMMAND: runs a command into $logs/NAME.log, and prints its output too where NAME is among the words of `shown`, and writes passed, failed
# and seconds into $logs/NAME.sum. Without a tool or what must be built, without a closing line, or with a status that does not fit this line, it has failed.
part() {
  local name=$1 log=$logs/$1.log began said passed=0 failed=1
  began=$(date +%s) said=$(lacking "$2" "$3")
  if [ -z "$said" ]; then
    bash -c "$4" </dev/null 2>&1 | { if [[ " ${shown-} " == *" $name "* ]]; then tee "$log"; else cat >"$log"; fi; } 2>/dev/null
    judge "$name" "${PIPESTATUS[0]}"
    [ -d "$logs" ] || exit # the script was killed meanwhile, and took its folder away
  fi
  [ -z "$said" ] || echo "$name: $said" | tee -a "$log" >&2
  echo "$passed $failed $(($(date +%s) - began))" >"$logs/$name.sum"
}

# run_parts WORD: the parts of that name, or of that lane, one after another.
run_parts() {
  local line name lane tools built command shows
  for line in "${parts[@]}"; do
    IFS=$'\t' read -r name lane tools built command shows <<<"$line"
    if [ "$name" = "$1" ] || [ "$lane" = "$1" ]; then part "$name" "$tools" "$built" "$command"; fi
  done
}

# add_up NAME..: `passed` and `failed` of these parts together, and `times`, a line each. A part that left no sum has failed.
add_up() {
  local name one other seconds
  passed=0 failed=0 times=
  for name; do
    one=0 other=1 seconds=0
    { read -r one other seconds <"$logs/$name.sum"; } 2>/dev/null || echo "$name: it left no sum in $logs" >&2
    passed=$((passed + one)) failed=$((failed + other))
    times+=$(printf '%-22s %6d s %8d passed %6d failed' "$name" "$seconds" "$one" "$other")$'\n'
  done
}

# finish BEGAN: the last lines, and the exit status.
finish() {
  hand_out "${times}all: $(($(date +%s) - $1)) s"$'\n'"$passed passed, $failed failed"$'\n'
  [ "$failed" -eq 0 ] && [ "$passed" -gt 0 ]
  exit
}
