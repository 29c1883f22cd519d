# shellcheck shell=bash disable=SC2154
# The engine as a library: what C, C++, Python and C# get of it, each compiler and tool where it is there. The library is
# crates/roam_c/out/libroam_c.a, which `rt ci` and lib/build leave; ROAM_ARCHIVE names another one. Sourced by lines.sh.

# calls_of NAME COUNT: how many random calls; a tenth of worlds, each of which may load a terrain.
calls_of() { if [ "$1" = worlds ]; then echo $(($2 / 10)); else echo "$2"; fi; }

mkdir -- "$room/library" && cd -- "$room/library" || exit 1

# lib/build over a small repository with a toolchain of a few lines: what it builds and when, as test_launcher.py has it of the program.
if has library_build cc ar touch; then
  mkdir -p small/bin small/crates/{low,roam_c,unused}/src
  cp -R -- "$top/tools" "$top/lib" "$top/python" small/
  rm -rf small/lib/out
  printf 'low:\nunused:\nroam_c staticlib: low kit_library\n' >small/crates.txt
  for name in low roam_c unused; do echo 'int roam_open(void) { return 0; }' >"small/crates/$name/src/text.c"; done
  cat >small/bin/rt <<'RT'
#!/usr/bin/env bash
[ "$1" = lib ] || exit 1
echo "$1 ${PWD##*/}" >>"${0%/*}/commands"
mkdir -p out && cc -fPIC -c -o out/text.o src/text.c && ar r "out/lib${PWD##*/}.a" out/text.o
RT
  chmod +x small/bin/rt
  # build NAME STATUS COMMANDS: one call; its status, and which commands of the toolchain it gave.
  build() {
    local why=() status
    : >small/bin/commands
    rm -rf installed
    PATH=$PWD/small/bin:$PATH limited small/lib/build installed >said 2>&1
    status=$?
    [ $status -eq "$2" ] || why+=("exit status $status, not $2: $(tail -n 3 said | tr '\n' '/')")
    [ "$(tr '\n' ' ' <small/bin/commands)" = "$3" ] || why+=("commands: $(tr '\n' ' ' <small/bin/commands)")
    [ "$(find installed -name 'libroam.*' 2>/dev/null | wc -l)" -eq $(($2 == 0 ? 3 : 0)) ] || why+=("installed: $(find installed | tr '\n' ' ')")
    decide "$1" ${why[0]+"${why[@]}"}
  }
  build library_build_proves_what_is_needed_lowest_first 0 'lib low lib roam_c '
  touch -d '+1 hour' small/crates/unused/src/text.c
  build library_build_only_installs_the_second_time 0 ''
  sleep 0.01
  echo broken >small/crates/low/src/text.c
  build library_build_installs_nothing_where_a_crate_is_refused 125 'lib low '
fi

archive=${ROAM_ARCHIVE:-$top/crates/roam_c/out/libroam_c.a}
if [ ! -f "$archive" ]; then
  wrong the_library_is_built "there is no crates/roam_c/out/libroam_c.a; run 'lib/build' or 'rt ci' first"
  return
fi
prefix=$PWD/prefix
uses=$top/examples/library
tests=$top/checks/library
strict=(-Wall -Wextra -pedantic -Werror)
jacksboro=$top/examples/jacksboro/grid.pgm

# runs NAME TEXT WORDS..: one command; its last line has to hold TEXT.
runs() {
  local said status
  said=$(limited "${@:3}" 2>&1)
  status=$?
  if [ $status -eq 0 ] && [[ $(tail -n 1 <<<"$said") == *"$2"* ]]; then
    ok "$1"
  else
    wrong "$1" "exit status $status, '$(tail -n 12 <<<"$said" | head -c 900 | tr '\n' '/')'"
  fi
}

# builds NAME WORDS..: one call of a compiler; a check of its own only where it fails.
builds() {
  limited "${@:2}" >said 2>&1 && return
  wrong "$1" "not built: '$(head -n 5 said | head -c 600 | tr '\n' '/')'"
  return 1
}

if ! limited "$top/lib/build" "$prefix" "$archive" >said 2>&1; then
  wrong library_is_installed "'$(tail -n 5 said | tr '\n' '/')'"
  return
fi
ok library_is_installed
static=("-I$prefix/include" "$prefix/lib/libroam.a")

if has library_exports_what_its_header_says nm; then
  mapfile -t why < <(
    diff <(nm -D --defined-only "$prefix/lib/libroam.so" | awk '{ print $3 }' | sort) \
      <(sed -n 's/^[a-z_0-9]* \(roam_[a-z_]*\)(.*/\1/p' "$prefix/include/roam.h" | sort) | grep '^[<>]'
  )
  decide library_exports_what_its_header_says ${why[0]+"${why[@]}"}
fi

# --- C and C++: the headers without a warning, the examples, and every call against the header's words. ---

for cc in gcc clang; do
  if has "library_$cc" "$cc"; then
    c=("$cc" -std=c99 -O2 "${strict[@]}")
    if builds "library_heap_$cc" "${c[@]}" -c -o heap.o "$top/lib/heap.c" &&
      builds "library_flight_$cc" "${c[@]}" -o "flight_$cc" "$uses/flight.c" "${static[@]}"; then
      runs "library_flight_$cc" '40 frames' "./flight_$cc" "$jacksboro" 2000 90 40
    fi
    for name in calls tiles worlds; do
      if builds "library_${name}_$cc" "${c[@]}" -o "${name}_$cc" "$tests/$name.c" "${static[@]}"; then
        runs "library_${name}_$cc" 'roam.h says' "./${name}_$cc" 1 "$(calls_of "$name" "$([ "$cc" = gcc ] && echo 200000 || echo 20000)")"
        runs "library_ends_of_${name}_$cc" 'each refused in turn' "./${name}_$cc" ends
      fi
    done
  fi
done

for cc in g++ clang++; do
  if has "library_$cc" "$cc"; then
    c=("$cc" -std=c++17 -O2 "${strict[@]}" -pthread)
    for file in "$uses/first_frame.cpp" "$uses/threads.cpp" "$tests/rounds.cpp"; do
      name=$(basename "$file" .cpp)
      if builds "library_${name}_$cc" "${c[@]}" -o "${name}_$cc" "$file" "${static[@]}"; then
        runs "library_${name}_$cc" '' "./${name}_$cc"
      fi
    done
    if builds "library_world_$cc" "${c[@]}" -o "world_$cc" "$uses/world.cpp" "${static[@]}"; then
      runs "library_world_$cc" '' bash -c '"$0" >world.txt && cmp world.txt "$1"' "./world_$cc" "$uses/expected/world.txt"
    fi
    for year in 17 20; do
      for name in answers pages; do
        if builds "library_${name}_${year}_$cc" "${c[@]}" "-std=c++$year" -fno-exceptions -o "${name}_$cc" "$tests/$name.cpp" "${static[@]}"; then
          runs "library_${name}_${year}_$cc" '' "./${name}_$cc"
        fi
      done
    done
  fi
done

if has library_by_pkg_config pkg-config cc; then
  read -r -a words < <(PKG_CONFIG_PATH=$prefix/lib/pkgconfig pkg-config --cflags --libs roam)
  if builds library_by_pkg_config cc -std=c99 -o flight_shared "$uses/flight.c" "${words[@]}"; then
    runs library_by_pkg_config '10 frames' env LD_LIBRARY_PATH="$prefix/lib" ./flight_shared "$jacksboro" 2000 90 10
  fi
fi

if has library_by_cmake cmake make; then
  if builds library_by_cmake cmake -S "$tests" -B by_cmake -DCMAKE_PREFIX_PATH="$prefix" -DEXAMPLES="$uses" &&
    builds library_by_cmake cmake --build by_cmake; then
    runs library_by_cmake 'indices in this frame' by_cmake/first_frame
    runs library_by_cmake_shared '10 frames' by_cmake/flight "$jacksboro" 2000 90 10
  fi
fi

# The loops of docs/LIBRARY.md, each in a function of its own, and that of README.md.
# block LANGUAGE [PAGE [WORD]]: the page's code in this language that stands under the heading `## WORD that ..`, or else under no such one.
block() {
  awk -v begin="\`\`\`$1" -v word="${3:-}" '
    $0 == begin { inside = 1; next } /^```/ { inside = 0 } !inside && /^## / { under = $3 == "that" ? $2 : "" }
    inside && under == word' "$top/${2:-docs/LIBRARY.md}"
}
where='int flying, int64_t x, int64_t y, int64_t z)'
if has library_loops_of_the_docs cc c++; then
  { echo '#include "roam.h"'; echo "int fly(const uint16_t *heights, uint32_t *index_buffer, $where {"; block c; echo 'return 0; }'; } >loop.c
  { block cpp | grep '^#'; echo "int fly(const std::vector<uint16_t> &heights, $where {"; block cpp | grep -v '^#'; echo 'return 0; }'; } >loop.cpp
  {
    echo '#include "roam.h"'
    echo "int fly(const uint16_t *heights, uint32_t *buffer, $where { roam_handle terrain = ROAM_EMPTY; roam_frame_note note; size_t count = 0;"
    block c README.md
    echo 'return (int)count; }'
  } >first.c
  {
    echo '#include "roam.h"'
    echo 'const uint16_t *heights_of(roam_tile_note tile); void keep(roam_tile_note tile, roam_fitter *f);'
    echo 'int fit(uint32_t columns, uint32_t rows, uint32_t side, uint32_t *points) {'
    block c docs/LIBRARY.md Tiles
    echo 'return roam_fitter_close(&f) == ROAM_OK && roam_mosaic_close(&m) == ROAM_OK; }'
  } >tiles.c
  {
    echo '#include "roam.hpp"'
    echo 'std::vector<uint16_t> heights_of(uint32_t column, uint32_t row);'
    echo 'void fit(uint32_t columns, uint32_t rows, uint32_t side) {'
    block cpp docs/LIBRARY.md Tiles
    echo '}'
  } >tiles.cpp
  {
    echo '#include "roam_pager.hpp"'
    echo 'std::vector<uint16_t> heights_of(uint32_t q, uint32_t column, uint32_t row);'
    echo "void fly(uint32_t n, uint32_t large, uint32_t spacing, $where {"
    block cpp docs/LIBRARY.md Pages | grep -v '^#'
    echo '}'
  } >pages.cpp
  if builds library_pages_of_the_docs c++ -std=c++17 -Wall -Wextra -Werror -c "-I$prefix/include" pages.cpp; then
    ok library_pages_of_the_docs
  fi
  if builds library_tiles_of_the_docs cc -std=c99 -Wall -Wextra -Werror -pedantic -c "-I$prefix/include" tiles.c &&
    builds library_tiles_of_the_docs c++ -std=c++17 -Wall -Wextra -Werror -c "-I$prefix/include" tiles.cpp; then
    ok library_tiles_of_the_docs
  fi
  if builds library_loops_of_the_docs cc -std=c99 -Wall -Wextra -Werror -pedantic -c "-I$prefix/include" first.c &&
    builds library_loops_of_the_docs cc -std=c99 -Wall -Wextra -pedantic -c "-I$prefix/include" loop.c &&
    builds library_loops_of_the_docs c++ -std=c++17 -Wall -Wextra -Werror -Wno-unused-variable -Wno-unused-but-set-variable -c "-I$prefix/include" loop.cpp; then
    ok library_loops_of_the_docs
  fi
fi

# Programs with threads, and the last line of each.
threads=("$uses/threads.cpp" "$tests/pages.cpp")
declare -A last=([threads]='one after the other' [pages]='the pages around a camera')

# --- The same under sanitizers, from libFuzzer, and in valgrind. ---

sanitized=(-g -O1 '-fsanitize=address,undefined' -fno-sanitize-recover=all)
sanitizer=
echo 'int main(void) { return 0; }' >empty.c
for cc in clang gcc; do
  "$cc" "${sanitized[@]}" -o empty empty.c >said 2>&1 && limited ./empty && sanitizer=$cc && break
done
if [ -n "$sanitizer" ]; then
  c=("$sanitizer" "${sanitized[@]}")
  cpp=("${sanitizer/gcc/g}" "${sanitized[@]}")
  cpp[0]+=++
  if builds library_flight_sanitized "${c[@]}" -std=c99 -o flight_sanitized "$uses/flight.c" "${static[@]}"; then
    runs library_flight_sanitized '20 frames' ./flight_sanitized "$jacksboro" 2000 90 20
  fi
  for file in "${threads[@]}"; do
    name=$(basename "$file" .cpp)
    if builds "library_${name}_sanitized" "${cpp[@]}" -std=c++17 -pthread -o "${name}_sanitized" "$file" "${static[@]}"; then
      runs "library_${name}_sanitized" "${last[$name]}" "./${name}_sanitized"
    fi
  done
  for name in calls tiles worlds; do
    if builds "library_${name}_sanitized" "${c[@]}" -std=c99 -o "${name}_sanitized" "$tests/$name.c" "${static[@]}"; then
      runs "library_${name}_sanitized" 'roam.h says' "./${name}_sanitized" 2 "$(calls_of "$name" 200000)"
      runs "library_ends_of_${name}_sanitized" 'each refused in turn' "./${name}_sanitized" ends
    fi
  done
else
  skip library_sanitized 'no compiler with the sanitizers of addresses and undefined behaviour is there'
fi

# ThreadSanitizer sees the C++ and the heap, not what the library reads and writes; helgrind, below, sees that too.
racing=
for cc in clang++ g++; do
  "$cc" -g -O1 -fsanitize=thread -x c++ -o empty empty.c >said 2>&1 && limited ./empty && racing=$cc && break
done
if [ -n "$racing" ]; then
  for file in "${threads[@]}"; do
    name=$(basename "$file" .cpp)
    if builds "library_${name}_without_races" "$racing" -std=c++17 -g -O1 -fsanitize=thread -pthread -o "${name}_racing" "$file" "${static[@]}"; then
      runs "library_${name}_without_races" "${last[$name]}" "./${name}_racing"
    fi
  done
else
  skip library_threads_without_races 'no compiler with the sanitizer of threads is there'
fi

if has library_fuzzed clang; then
  fuzzer=(clang -g -O1 -std=c99 -DFUZZER '-fsanitize=fuzzer,address,undefined' -fno-sanitize-recover=all)
  for name in calls tiles worlds; do
    if "${fuzzer[@]}" -o "${name}_fuzzed" "$tests/$name.c" "${static[@]}" >said 2>&1; then
      count=$(calls_of "$name" 20000)
      runs "library_${name}_fuzzed" "Done $count runs" "./${name}_fuzzed" -seed=1 "-runs=$count" -max_len=4096 -len_control=0
    else
      skip "library_${name}_fuzzed" 'clang has no libFuzzer'
    fi
  done
fi

if has library_in_valgrind valgrind cc; then
  watched=(valgrind -q --error-exitcode=9 --leak-check=full --show-leak-kinds=all --errors-for-leak-kinds=all)
  for name in calls tiles worlds; do
    if builds "library_${name}_in_valgrind" cc -std=c99 -g -O1 -o "${name}_watched" "$tests/$name.c" "${static[@]}"; then
      runs "library_${name}_in_valgrind" 'roam.h says' "${watched[@]}" "./${name}_watched" 3 "$(calls_of "$name" 2000)"
    fi
  done
  if builds library_flight_in_valgrind cc -std=c99 -g -O1 -o flight_watched "$uses/flight.c" "${static[@]}"; then
    runs library_flight_in_valgrind '4 frames' "${watched[@]}" ./flight_watched "$jacksboro" 500 90 4
  fi
  for file in "${threads[@]}"; do
    name=$(basename "$file" .cpp)
    if has "library_${name}_in_valgrind" c++ &&
      builds "library_${name}_in_valgrind" c++ -std=c++17 -g -O1 -pthread -o "${name}_watched" "$file" "${static[@]}"; then
      runs "library_${name}_in_valgrind" "${last[$name]}" "${watched[@]}" "./${name}_watched"
      runs "library_${name}_in_helgrind" "${last[$name]}" valgrind -q --tool=helgrind --error-exitcode=9 "./${name}_watched" 20
    fi
  done
fi

# --- Python: the example's reports, its mesh and certificate, and the loop of the docs. The rest is in python/tests. ---

if has library_python python3; then
  if python3 -c 'import numpy' 2>/dev/null; then
    python=(env PYTHONPATH="$prefix/lib/python" PYTHONDONTWRITEBYTECODE=1 python3)
    mkdir found
    runs library_python_mesh 'off by at most' "${python[@]}" "$uses/jacksboro.py" found
    runs library_python_obj '' cmp found/mesh.obj "$top/examples/jacksboro/expected/out000001.obj"
    runs library_python_certificate certified python3 "$top/checks/certificates.py" "$jacksboro" found/mesh.obj found/certificate 2000 90
    if [ -x "$program" ]; then
      limited "$program" certify make "$jacksboro" 0 0 0 2000 90 >of_program
      runs library_python_certificate_of_program '' cmp found/certificate of_program
    else
      skip library_python_certificate_of_program 'the program is not built'
    fi
    { printf '%s\n' 'import calfrewin' 'heights, path = [7] * 81, [(1, 2, 3.5)] * 3'
      block python docs/PYTHON.md | sed -n '/^with calfrewin.Engine/,/^[^ ]/{/^with calfrewin.Engine\|^ /p}'
      echo 'print(note.triangles)'; } >loop.py
    runs library_python_loop_of_the_docs 2 "${python[@]}" loop.py
  else
    skip library_python 'numpy is not there'
  fi
fi

# --- C#, by mono. ---

if has library_csharp mcs mono; then
  if builds library_csharp mcs -warnaserror -out:frames.exe "$prefix/share/roam/Roam.cs" "$tests/Frames.cs"; then
    runs library_csharp 'frames of C#' env LD_LIBRARY_PATH="$prefix/lib" mono frames.exe
  fi
  { echo 'static class Loop { static void Fly(ushort[] heights, bool flying, long x, long y, long z) {'; block csharp; echo '} }'; } >loop.cs
  if builds library_csharp_loop_of_the_docs mcs -target:library -out:loop.dll "$prefix/share/roam/Roam.cs" loop.cs; then
    ok library_csharp_loop_of_the_docs
  fi
fi
