# How far a run over all crates is, for ./tsdb and ./check, which read this file. A crate counts by the lines of its
# sources: its proof takes 2 to 6 processor minutes per thousand of them, and its wrong bodies about as long again.

# Reads the crates of a repository, lowest first, and starts the clock. With a crate's name, only that one and those
# below it.
begin_progress() {
  local crate below
  progress_began=$SECONDS all_lines=0 proved_lines=0
  crates=()
  declare -gA lines_of=() below_of=() way_of=() is_proved=()
  while IFS=: read -r crate below; do
    crates+=("${crate%% *}")
    below_of[${crate%% *}]=$(grep -ow 'ts_[a-z_]*' <<<"$below" | paste -sd ' ' || true)
  done < <(sed -n '/^[a-z][a-z0-9_]* *[a-z]*:/p' "$1/crates.txt")
  [ $# -lt 2 ] || keep_below "$2"
  for crate in "${crates[@]}"; do
    lines_of[$crate]=$(find "$1/crates/$crate/src" -name '*.rt' -exec cat {} + | wc -l)
    all_lines=$((all_lines + lines_of[$crate]))
  done
  measure_ways
}

# Notes each crate's way: the lines of the longest chain of crates that begins with it, each below the next.
measure_ways() {
  local index crate below
  for ((index = ${#crates[@]} - 1; index >= 0; index--)); do
    crate=${crates[index]}
    way_of[$crate]=$((${way_of[$crate]:-0} + lines_of[$crate]))
    for below in ${below_of[$crate]}; do
      [ "${way_of[$below]:-0}" -ge "${way_of[$crate]}" ] || way_of[$below]=${way_of[$crate]}
    done
  done
}

# Keeps of the crates only the named one and those that it depends on, which crates.txt lists before it.
keep_below() {
  local index crate
  declare -A is_needed=([$1]=1)
  for ((index = ${#crates[@]} - 1; index >= 0; index--)); do
    crate=${crates[index]}
    if [ -n "${is_needed[$crate]:-}" ]; then
      for crate in ${below_of[$crate]}; do is_needed[$crate]=1; done
    else
      unset "crates[index]"
    fi
  done
  crates=("${crates[@]}")
}

# Prints how many checks run side by side here: one per processor, as far as there are 4 GB for each, and at least one.
jobs_here() {
  local processors held
  processors=$(nproc) held=$(awk '/^MemAvailable:/ { print int($2 / 4000000) }' /proc/meminfo)
  echo $((held < 1 ? 1 : held < processors ? held : processors))
}

# Prints at most N crates that aren't proved and stand on proved ones: `ready_crates N RUNNING..`, without those that
# are running.
ready_crates() {
  local crate below room=$1
  shift
  for crate in "${crates[@]}"; do
    [ "$room" -gt 0 ] || return 0
    [ -z "${is_proved[$crate]:-}" ] && [[ " $* " != *" $crate "* ]] || continue
    for below in ${below_of[$crate]}; do
      [ -n "${is_proved[$below]:-}" ] || continue 2
    done
    echo "$crate"
    room=$((room - 1))
  done
}

minutes_so_far() {
  echo "$(((SECONDS - progress_began + 30) / 60)) minutes"
}

# Notes that a crate is proved, and reports 'NAME: proved CRATE, 3 of 15: M minutes so far, about N to come' on standard
# error; there is no estimate before a tenth of the lines. `report_proved NAME CRATE [TIMES] [WORD]`: all work takes
# TIMES as long as the proofs.
report_proved() {
  local all=$((all_lines * ${3:-1})) estimate=
  is_proved[$2]=1 proved_lines=$((proved_lines + lines_of[$2]))
  if [ $((proved_lines * 10)) -ge $all ]; then
    estimate=", ${4:-about} $((((SECONDS - progress_began) * (all - proved_lines) / proved_lines + 59) / 60)) to come"
  fi
  echo "$1: proved $2, ${#is_proved[@]} of ${#crates[@]}: $(minutes_so_far) so far$estimate" >&2
}

# Copies the output of `rt ci`, and reports after each crate how far it is. The gate says nothing of single wrong bodies
# while it tries them beside the proofs, so what is to come is at most the time of both.
follow_gate() {
  local line crate
  while IFS= read -r line; do
    printf '%s\n' "$line"
    case $line in
    'rt: '*' proved' | 'rt: '*' is kept: '*)
      crate=${line#rt: } crate=${crate%% *}
      [ -z "${lines_of[$crate]:-}" ] || report_proved check "$crate" 3 'at most'
      ;;
    esac
  done
}
