#!/usr/bin/env bash
# Times the built program over generated input, and prints a table for results.md. Nothing here is a test:
# no figure fails the run, and no claim rests on one. It takes some minutes, python3, and 100 MB of the folder for
# temporary files.
#
# usage: bench/run.sh [whole] [PROGRAM]   with `whole`, the cases from file to file alone
#                                   RUNS=N: the least of N runs is printed (5, if not given)
#                                   PEER=PROGRAM: another mesher with the same words, `PEER mesh GRID SCRIPT PREFIX BUDGET SPACING`,
#                                   is timed beside ours from file to file, and has to write the same files
set -u
export LC_ALL=C

here=$(readlink -f -- "${BASH_SOURCE[0]}")
top=${here%/*/*}
whole=
[ "${1:-}" != whole ] || { whole=1; shift; }
program=$(readlink -f -- "${1:-$top/crates/roam_cli/out/roam_cli}")
[ -x "$program" ] || { echo "bench/run.sh: there is no program $program; run 'rt ci' or ./roam first" >&2; exit 1; }
runs=${RUNS:-5}
frames=10000
room=$(mktemp -d) || exit 1
trap 'rm -rf -- "$room"' EXIT
TIMEFORMAT=%R

# seconds COMMAND..: the wall time of one run, by bash.
seconds() { { time "$@" >"$room/said" 2>&1; } 2>&1; }

# least COMMAND..: the least of the runs, with $room/made emptied before each.
least() {
  local k
  for ((k = 0; k < runs; k++)); do
    rm -rf -- "$room/made" && mkdir -- "$room/made"
    (cd -- "$room/made" && seconds "$@")
  done | sort -n | head -n 1
}

# peak COMMAND..: the most memory that was resident, in MB, by GNU time, else by the kernel's count, which
# is read again and again while the program runs.
peak() {
  local kib=0 it
  rm -rf -- "$room/made" && mkdir -- "$room/made" && cd -- "$room/made" || exit 1
  if [ -x /usr/bin/time ] && /usr/bin/time -f %M true 2>/dev/null; then
    /usr/bin/time -o "$room/peak" -f %M "$@" >"$room/said"
    kib=$(tail -n 1 "$room/peak")
  else
    "$@" >"$room/said" &
    while it=$(sed -n 's/^VmHWM:[[:space:]]*\([0-9]*\).*/\1/p' "/proc/$!/status" 2>/dev/null) && [ -n "$it" ]; do
      kib=$it
    done
    wait $!
  fi
  awk -v kib="$kib" 'BEGIN { printf "%.1f", kib / 1024 }'
}

# a_frame SECONDS: microseconds a frame.
a_frame() { awk -v s="$1" -v n="$frames" 'BEGIN { printf "%.1f", 1000000 * s / n }'; }
ratio() { awk -v a="$1" -v b="$2" 'BEGIN { printf "%.2f", a / b }'; }

# rough_grid SIDE: heights from a linear congruence, from which neighbours take half: rougher than any terrain.
rough_grid() {
  python3 -c '
import sys
side = int(sys.argv[1])
number, heights, before = 1, bytearray(), [0] * side
for row in range(side):
    left = 0
    for column in range(side):
        number = (number * 1664525 + 1013904223) % 2**32
        left = (2 * (number >> 16) + left + before[column]) // 4
        before[column] = left
        heights += left.to_bytes(2, "big")
sys.stdout.buffer.write(b"P5\n%d %d\n65535\n" % (side, side) + heights)' "$1"
}

# The files of the frames by other means: a plain loop of the shell, and one cp.
by_loop() {
  local k text name
  text=$(cat "$room/mesh")
  for ((k = 1; k <= frames; k++)); do
    printf -v name 'out%06d.obj' "$k"
    printf '%s\n' "$text" >"$name"
  done
}
by_cp() { cp -- "$room"/source/*.obj .; }

# about: the date, the machine and its load now.
about() {
  local load model
  read -r load _ </proc/loadavg
  model=$(sed -n 's/^model name[[:space:]]*: //p' /proc/cpuinfo 2>/dev/null | head -n 1)
  echo "$(date -u +%Y-%m-%d), $(uname -sm), $(nproc) processors, $model, load $load, files in ${TMPDIR:-/tmp}, least of $runs runs"
}

# From file to file over made heights, in processor time of program and system: one frame, and flights 30 units a frame.
peer=
if [ -n "${PEER:-}" ]; then
  peer=$(readlink -f -- "$PEER")
  [ -x "$peer" ] || { echo "bench/run.sh: there is no program $peer" >&2; exit 1; }
fi

# made_grid LEVEL: the made heights of that level and seed 1, as a file that is made once, row after row from the top.
made_grid() {
  [ -f "$room/made_$1.pgm" ] || python3 -c '
import sys
sys.path.insert(0, sys.argv[1])
from generated import lattice
n = int(sys.argv[2])
side, known = 2**n + 1, {}
def values(k, j):
    known.pop((k, j + 2), None)
    if (k, j) not in known:
        known[k, j] = [lattice(1, k, i, j) for i in range(2 ** (n - k) + 2)]
    return known[k, j]
sys.stdout.buffer.write(b"P5\n%d %d\n65535\n" % (side, side))
for y in reversed(range(side)):
    row = [0] * side
    for k in range(n + 1):
        w = 2**k
        j, b = divmod(y, w)
        low = values(k, j)
        between = [below * (w - b) + above * b for below, above in zip(low, values(k, j + 1))]
        for x in range(side):
            i, a = x // w, x % w
            row[x] += (between[i] * (w - a) + between[i + 1] * a) // (w * w) // 2 ** (n - k + 1)
    sys.stdout.buffer.write(b"".join(height.to_bytes(2, "big") for height in row))' "$top/checks" "$1" >"$room/made_$1.pgm" || exit 1
  echo "$room/made_$1.pgm"
}

# least_cpu COMMAND..: the least processor time of the runs; $room/made has the files of the last one.
least_cpu() {
  local k
  for ((k = 0; k < runs; k++)); do
    rm -rf -- "$room/made" && mkdir -- "$room/made"
    (cd -- "$room/made" && TIMEFORMAT='%U %S' && seconds "$@")
  done | awk '{ print $1 + $2 }' | sort -g | head -n 1
}

# whole_row LEVEL BUDGET FRAMES: that many frames of the camera a third along the grid and half across it, 30 units on each time.
whole_row() {
  local grid k ours ours_memory beside= theirs theirs_memory written
  grid=$(made_grid "$1")
  for ((k = 0; k < $3; k++)); do
    echo "camera $((10 * 2 ** $1 + 30 * k)) $((15 * 2 ** $1)) 40000"
    echo frame
  done >"$room/whole"
  ours_memory=$(peak "$program" mesh "$grid" "$room/whole" out "$2" 30)
  ours=$(least_cpu "$program" mesh "$grid" "$room/whole" out "$2" 30)
  written=$(cat -- "$room/made"/out*.obj | wc -c)
  if [ -n "$peer" ]; then
    rm -rf -- "$room/ours" && mv -- "$room/made" "$room/ours"
    theirs_memory=$(peak "$peer" mesh "$grid" "$room/whole" out "$2" 30)
    theirs=$(least_cpu "$peer" mesh "$grid" "$room/whole" out "$2" 30)
    diff -rq -- "$room/ours" "$room/made" >"$room/said" || { echo "bench/run.sh: the peer writes other files, side $((2 ** $1 + 1)), budget $2" >&2; exit 1; }
    beside="the peer $theirs s, $theirs_memory MB; ours / peer $(ratio "$ours" "$theirs") and $(ratio "$ours_memory" "$theirs_memory")"
  fi
  echo "| file to file, side $((2 ** $1 + 1)), budget $2, $3 frames | $written bytes | $ours s, $ours_memory MB | $beside | at most 1.3 |"
}

# The cases from file to file.
whole_rows() {
  local level
  for level in 8 9 10 11; do whole_row "$level" 20000 1; done
  whole_row 11 100000 1
  whole_row 11 1048576 1
  whole_row 9 20000 200
  whole_row 11 20000 200
}

if [ -n "$whole" ]; then
  about
  echo
  echo '| case | count | measured | beside it | target |'
  echo '|---|---|---|---|---|'
  whole_rows
  exit
fi

{ printf 'P5\n2049 2049\n65535\n'; head -c "$((2 * 2049 * 2049))" /dev/zero; } >"$room/large.pgm"
{ printf 'P5\n3 3\n65535\n'; head -c 18 /dev/zero; } >"$room/small.pgm"
echo frame >"$room/one"
yes frame | head -n "$frames" >"$room/many"
printf 'v 0 0 0\nv 2 0 0\nv 0 2 0\nv 2 2 0\nf 1 2 3\nf 4 3 2\n' >"$room/mesh"

large=$(least "$program" mesh "$room/large.pgm" "$room/one" out 2 1)
memory=$(peak "$program" mesh "$room/large.pgm" "$room/one" out 2 1)
info=$(least "$program" info "$room/large.pgm")
info_memory=$(peak "$program" info "$room/large.pgm")
read_alone=$(least cat "$room/large.pgm")
many=$(least "$program" mesh "$room/small.pgm" "$room/many" out 2 1)
made=$(find "$room/made" -name '*.obj' | wc -l)
[ "$made" -eq "$frames" ] || { echo "bench/run.sh: the program made $made meshes of $frames" >&2; exit 1; }
mv -- "$room/made" "$room/source"
jacksboro=$top/examples/jacksboro/grid.pgm
small_budget=$(least "$program" mesh "$jacksboro" "$room/one" out 2000 90)
small_budget_memory=$(peak "$program" mesh "$jacksboro" "$room/one" out 2000 90)
large_budget=$(least "$program" mesh "$jacksboro" "$room/one" out 20000 90)
large_budget_memory=$(peak "$program" mesh "$jacksboro" "$room/one" out 20000 90)
for ((k = 0; k < 50; k++)); do
  echo "camera $((1000 + 400 * k)) $((1000 + 400 * k)) 1200"
  echo frame
done >"$room/flight"
flight=$(least "$program" mesh "$jacksboro" "$room/flight" out 20000 90)
flight_memory=$(peak "$program" mesh "$jacksboro" "$room/flight" out 20000 90)
made_terrain=$(least "$program" try 9 1)
made_terrain_memory=$(peak "$program" try 9 1)
rough_grid 1025 >"$room/rough.pgm"
rough=$(least "$program" mesh "$room/rough.pgm" "$room/one" out 20000 30)
rough_memory=$(peak "$program" mesh "$room/rough.pgm" "$room/one" out 20000 30)
loop=$(least by_loop)
copy=$(least by_cp)

about
echo
cat <<TABLE
| case | count | measured | beside it | target |
|---|---|---|---|---|
| flat grid of side 2049, budget 2, one frame: time | 8,396,821 bytes, 8,388,606 splittable triangles | $large s | cat of the grid $read_alone s | |
| flat grid of side 2049, budget 2, one frame: peak memory | 8,396,802 bytes of heights | $memory MB | | |
| info on a grid of side 2049: time | 8,396,821 bytes, 16,777,214 triangles | $info s | | under 0.1 s |
| info on a grid of side 2049: peak memory | 8,396,802 bytes of heights | $info_memory MB | | under 10 MB beyond the grid |
| the Jacksboro grid, side 257, budget 2,000, one frame | 131,070 splittable triangles | $small_budget s, $small_budget_memory MB | | |
| the Jacksboro grid, side 257, budget 20,000, one frame | 131,070 splittable triangles | $large_budget s, $large_budget_memory MB | | under 1 s |
| a flight of 50 frames over the Jacksboro grid, budget 20,000 | a camera move before each frame | $flight s, $flight_memory MB | | |
| try 9 1 | 50 frames over made terrain of side 513 | $made_terrain s, $made_terrain_memory MB | | |
| a rough grid of side 1025, budget 20,000, one frame | 2,097,150 splittable triangles | $rough s, $rough_memory MB | | |
| $frames frames on a 3x3 grid: time | $frames files of 48 bytes | $many s, $(a_frame "$many") us a frame | | |
| the same files by a loop of the shell | $frames files of 48 bytes | $loop s, $(a_frame "$loop") us a file | program / loop $(ratio "$many" "$loop") | at most 1 |
| the same files by one cp | $frames files of 48 bytes | $copy s, $(a_frame "$copy") us a file | program / cp $(ratio "$many" "$copy") | at most 1 |
TABLE

whole_rows

# Single calls, by the program roam_bench where it is built.
single=$top/crates/roam_bench/out/roam_bench
if [ -x "$single" ]; then
  # fastest CASE: the line of the run with the least seconds.
  fastest() {
    local k
    for ((k = 0; k < runs; k++)); do "$single" "$1"; done | sort -t ' ' -k 7 -n | head -n 1
  }
  read -r _ _ calls _ found _ seconds <<<"$(fastest mates)"
  echo "| the mate of every address, n = 11 | $calls calls, $found mates | $seconds s | | under 3 s |"
  read -r _ _ calls _ found _ seconds <<<"$(fastest forced)"
  echo "| the deepest corner triangle split by force on the empty set, n = 11 | $calls calls, $found triangles split | $(awk -v s="$seconds" -v n="$calls" 'BEGIN { printf "%.1f", 1000000 * s / n }') us a call | | under 1 ms |"
  read -r _ _ calls _ found _ seconds <<<"$(fastest heap)"
  if command -v rustc >"$room/said" && rustc -O --edition 2021 "$top/bench/heap.rs" -o "$room/heap" 2>"$room/said"; then
    read -r _ _ _ _ plain_found _ plain <<<"$(for ((k = 0; k < runs; k++)); do "$room/heap"; done | sort -t ' ' -k 7 -n | head -n 1)"
    [ "$plain_found" = "$found" ] || { echo "bench/run.sh: the two heaps differ: $found and $plain_found" >&2; exit 1; }
    echo "| random calls of a heap of 262,144 slots with keys of 16 bytes | $calls calls, sum $found | $seconds s | plain Rust $plain s, ours / plain $(ratio "$seconds" "$plain") | at most 1.2 |"
  else
    echo "| random calls of a heap of 262,144 slots with keys of 16 bytes | $calls calls, sum $found | $seconds s | no rustc | at most 1.2 |"
  fi
  # seconds_of CASE: its least seconds. rate BYTES CASE LESS: bytes a second of 20 calls, in GB or MB.
  seconds_of() { local it; read -r _ _ _ _ _ _ it <<<"$(fastest "$1")"; echo "$it"; }
  rate() { awk -v b="$1" -v s="$(seconds_of "$2")" -v less="$3" 'BEGIN { r = 20 * b / (s - less); printf (r < 1e9 ? "%.0f MB/s" : "%.2f GB/s"), (r < 1e9 ? r / 1e6 : r / 1e9) }'; }
  echo "| a raw grid of side 2049 read from memory | 20 times 8,396,821 bytes | $(rate 8396821 raw "$(seconds_of raw_text)") | | at least 1.5 GB/s |"
  echo "| a plain grid of side 2049 read from memory | 20 times 25,190,425 bytes | $(rate 25190425 plain "$(seconds_of plain_text)") | | at least 150 MB/s |"
  alone=$(seconds_of samples_alone)
  # fit_row WORDS CASE TARGET: a mesh over made heights, without what stands before it, and against the plain frame.
  none=$(seconds_of fit_none)
  frame=$(awk -v s="$(seconds_of fit_frame)" -v n="$none" 'BEGIN { printf "%.4f", s - n }')
  fit_row() {
    local it
    it=$(awk -v s="$(seconds_of "$2")" -v n="$none" 'BEGIN { printf "%.4f", s - n }')
    echo "| $1 | n = 11, made heights, error 20 | $it s | / frame $(ratio "$it" "$frame") | $3 |"
  }
  fit_row "Fit::frame with no bound" fit_frame ""
  fit_row "Fit::frame_with, nothing required" fit_nothing "1"
  fit_row "Fit::frame_with, 1,000 points" fit_points "at most 1.1"
  fit_row "Fit::frame_within, that tolerance for each point" fit_own ""
  for kernel in be16 first_above range; do
    echo "| $kernel | 20 times 8,396,802 bytes of samples | $(rate 8396802 $kernel "$alone") | its plain twin $(rate 8396802 "${kernel}_plain" "$alone") | |"
  done
  read -r _ _ calls _ found _ building <<<"$(fastest wedges)"
  echo "| the wedges of a rough grid, n = 11, the filling of the grid with it | $calls call | $building s | | under 0.05 s |"
  read -r _ _ calls _ found _ seconds <<<"$(fastest ranks)"
  echo "| the rank of every triangle of that grid without planes, n = 11 | $calls calls, $found positive | $(awk -v s="$seconds" -v b="$building" -v n="$calls" 'BEGIN { printf "%.1f", 1000000000 * (s - b) / n }') ns a call | | under 60 ns |"
  # Edits of heights over that grid, the generated grid and lines of scripts, beside the same calls in plain Rust.
  plain_scripts=
  plain_building=0
  if command -v rustc >"$room/said" && rustc -O --edition 2021 "$top/bench/scripts.rs" -o "$room/scripts" 2>"$room/said"; then
    plain_scripts=$room/scripts
    plain_building=$(for ((k = 0; k < runs; k++)); do "$plain_scripts" wedges; done | cut -d ' ' -f 7 | sort -n | head -n 1)
  fi
  # each SECONDS LESS CALLS: the time of a call, or how many a second.
  each() {
    awk -v s="$1" -v less="$2" -v n="$3" 'BEGIN {
      t = (s - less) / n
      if (t < 1e-6) printf "%.1f million a second", 1e-6 / t
      else if (t < 1e-3) printf "%.1f us a call", 1e6 * t
      else printf "%.2f ms a call", 1e3 * t
    }'
  }
  # script_row CASE LESS PLAIN_LESS WHAT TARGET: the least seconds without those of the building, of ours and of the plain
  # Rust, which has to find the same where it has that case.
  script_row() {
    local calls found ours plain_found='' plain beside='no rustc'
    read -r _ _ calls _ found _ ours <<<"$(fastest "$1")"
    if [ -n "$plain_scripts" ]; then
      beside=
      read -r _ _ _ _ plain_found _ plain <<<"$(for ((k = 0; k < runs; k++)); do "$plain_scripts" "$1"; done | sort -t ' ' -k 7 -n | head -n 1)"
      if [ -n "$plain_found" ]; then
        [ "$plain_found" = "$found" ] || { echo "bench/run.sh: ours and plain Rust differ in $1: $found and $plain_found" >&2; exit 1; }
        beside=$(awk -v text="$(each "$plain" "$3" "$calls")" -v s="$ours" -v less="$2" -v p="$plain" -v pless="$3" \
          'BEGIN { printf "plain Rust %s, ours / plain %.2f", text, (s - less) / (p - pless) }')
      fi
    fi
    echo "| $4 | $calls calls | $(each "$ours" "$2" "$calls") | $beside | $5 |"
  }
  script_row set "$building" "$plain_building" '`set` of a random point of that grid' 'under 30 us'
  script_row set_point "$building" "$plain_building" '`set_point` of the same points, with its list of triangles' ''
  script_row raise_row "$building" "$plain_building" '`raise` of a random row of that grid' 'under 5 ms'
  script_row raise_whole "$building" "$plain_building" '`raise` of that whole grid' "at most \`build\` alone, $(each "$building" "$(seconds_of rough_grid)" 1)"
  script_row gen_grid 0 0 '`gen_grid`, n = 11' 'under 1 s'
  script_row read_line 0 0 '`read_line` of lines of all kinds' ''
  # Frames of the two queues over made heights: only the frame is timed.
  for level in 9 11; do
    for kind in first still moved; do
      read -r _ _ calls _ found _ seconds <<<"$(fastest "frame_${kind}_$level")"
      echo "| a $kind frame of the queues over made heights, n = $level, budget 20,000 | $calls evaluations, $found triangles split or merged | $(awk -v s="$seconds" 'BEGIN { printf "%.2f", 1000 * s }') ms | | |"
    done
  done
  # Flights of an engine over made heights: its tables, its first frame, and the mean of the frames behind it.
  for flight in 9_20000_0 9_20000_30 9_20000_602 11_20000_0 11_20000_30 11_20000_2409 11_100000_30 11_100000_2409 11_1048576_30; do
    IFS=_ read -r level most step <<<"$flight"
    for ((k = 0; k < runs; k++)); do "$single" "fly_$flight"; done >"$room/flown_$flight"
    tables=$(awk '$2 == "tables" { print $3 }' "$room/flown_$flight" | sort -n | head -n 1)
    echo "| an engine made over made heights, n = $level, budget $most | 1 call | $tables s | | |"
    for kind in first later; do
      read -r _ _ count _ calls _ found _ seconds <<<"$(grep " $kind " "$room/flown_$flight" | sort -t ' ' -k 9 -n | head -n 1)"
      echo "| its $kind frames, $step units a frame | $count frames, $calls evaluations, $found triangles split or merged | $(awk -v s="$seconds" -v n="$count" 'BEGIN { printf "%.2f", 1000 * s / n }') ms a frame | | |"
    done
  done
  # The same with two planes that turn by a degree before each frame, and with a drawing buffer that is patched behind each.
  for flight in look_9_20000_30 look_11_20000_30 look_11_100000_30 draw_9_20000_30 draw_9_20000_602 draw_11_20000_30 draw_11_20000_2409 draw_11_100000_30; do
    IFS=_ read -r what level most step <<<"$flight"
    for ((k = 0; k < runs; k++)); do "$single" "$flight"; done >"$room/flown_$flight"
    for kind in later beside; do
      read -r _ _ count _ calls _ found _ seconds <<<"$(grep " $kind " "$room/flown_$flight" | sort -t ' ' -k 9 -n | head -n 1)"
      case $what$kind in
      lookbeside) told="\`Engine::look\`, $count calls" ;;
      drawbeside) told="\`DrawBuffer::patch\`, $count calls, $found triangles told, $calls places written" ;;
      *) told="later frames, $calls evaluations, $found triangles split or merged" ;;
      esac
      echo "| $what, n = $level, budget $most, $step units a frame | $told | $(awk -v s="$seconds" -v n="$count" 'BEGIN { printf "%.3f", 1000 * s / n }') ms each | | |"
    done
  done
  # The same flights through the calls of the C library, in processor time, least of the runs, beside the engine's own.
  if command -v cc >"$room/said" && [ -f "$top/crates/roam_c/out/libroam_c.a" ] &&
    cc -std=c99 -O2 -I"$top/lib" -o "$room/calls" "$top/bench/calls.c" "$top/crates/roam_c/out/libroam_c.a" 2>"$room/said"; then
    for flight in 9_20000_30 9_20000_602 11_20000_30 11_100000_30; do
      IFS=_ read -r level most step <<<"$flight"
      for ((k = 0; k < runs; k++)); do "$room/calls" "$level" "$most" "$step"; done >"$room/called"
      for name in open first later indices leaves changes changed positions compact strip deviation fit_budget fit_error certificate planes turned look looked camera state set raise edited; do
        read -r _ count seconds _ asked _ changed <<<"$(grep "^$name " "$room/called" | sort -t ' ' -k 3 -g | head -n 1)"
        beside=
        case $name in
        open) beside="an engine made $(awk '$2 == "tables" { print $3 }' "$room/flown_$flight" | sort -n | head -n 1) s" ;;
        first | later)
          beside=$(grep " $name " "$room/flown_$flight" | sort -t ' ' -k 9 -n | head -n 1 |
            awk -v s="$seconds" '{ printf "the engine %.2f ms, calls / engine %.2f", 1000 * $9 / $3, s / $9 }')
          ;;
        esac
        echo "| \`roam_c\`, n = $level, budget $most, $step units a frame: $name | $count calls${asked:+, $asked evaluations, $changed triangles split or merged} | $(awk -v s="$seconds" -v n="$count" 'BEGIN { t = s / n; if (t < 1e-4) printf "%.2f us a call", 1e6 * t; else printf "%.3f ms a call", 1e3 * t }') | $beside | |"
      done
    done
  else
    echo "bench/run.sh: there is no C compiler or no crates/roam_c/out/libroam_c.a, so its calls are not timed; lib/build makes it" >&2
  fi
  # The pool of linked triangles: made; filled level by level, then emptied or planned over; refined by force.
  plain_pool=
  if command -v rustc >"$room/said" && rustc -O --edition 2021 "$top/bench/pool.rs" -o "$room/pool" 2>"$room/said"; then
    plain_pool=$room/pool
  fi
  # pool_row CASE CALLS WHAT TARGET: the least seconds of ours and of the plain pool, which has to find the same.
  pool_row() {
    local ours found plain plain_found beside='no rustc'
    read -r _ _ _ _ found _ ours <<<"$(fastest "$1")"
    if [ -n "$plain_pool" ]; then
      read -r _ _ _ _ plain_found _ plain <<<"$(for ((k = 0; k < runs; k++)); do "$plain_pool" "$1"; done | sort -t ' ' -k 7 -n | head -n 1)"
      [ "$plain_found" = "$found" ] || { echo "bench/run.sh: the two pools differ in $1: $found and $plain_found" >&2; exit 1; }
      beside="plain Rust $plain s, ours / plain $(ratio "$ours" "$plain")"
    fi
    echo "| $3 | $2 | $ours s | $beside | $4 |"
  }
  pool_row pool_new '10 calls' 'the greatest pool made, n = 11, 1,048,576 leaves' 'under 0.15 s; at most 1.2'
  pool_row pool_split '525,309 diamonds split' 'that pool made and filled level by level' 'at most 1.2'
  pool_row pool_merge 'as many split and merged' 'that pool filled and emptied' 'at most 1.2'
  pool_row pool_plan '1,048,576 chains' 'that pool filled, and the forced chain of each leaf planned' 'at most 1.2'
  pool_row pool_carry_out '400,000 leaves' 'that pool refined by force at random leaves, the walk to each with it' 'at most 1.2'
else
  echo "bench/run.sh: $single is not built, so single calls are not timed; rt ci builds it" >&2
fi
