# shellcheck shell=bash disable=SC2154
# The library for other systems, of what the proof of roam_c has left: for Linux on ARM by qemu, for Windows by Wine, both with the
# calls of checks/library against the words of roam.h and the checksums of the native library; for macOS what is linked.
# ROAM_ARCHIVE names another archive, with roam_c.bc beside it. Sourced by lines.sh.

archive=${ROAM_ARCHIVE:-$top/crates/roam_c/out/libroam_c.a}
mkdir -p -- "$room/targets" && cd -- "$room/targets" || exit 1
if ! "$top/lib/build" "$PWD/native" "$archive" >said 2>&1 ||
  ! cc -std=c99 -O2 -Inative/include -o same "$top/checks/js/same.c" native/lib/libroam.a >>said 2>&1; then
  wrong targets_native_library_is_built "$(tail -n 5 said | tr '\n' '/')"
  return
fi
./same 1 60 >expected
declare -A of_calls=([calls]=3000 [tiles]=300 [worlds]=60)

# target_is_made SYSTEM FILES..: the library of a system, and these files of it.
target_is_made() {
  local name=${1//-/_} file why=()
  if ! limited "$top/lib/build" --target "$1" "$PWD/$1" "$archive" >said 2>&1; then
    wrong "targets_${name}_is_made" "$(tail -n 5 said | tr '\n' '/')"
    return 1
  fi
  for file in include/roam.h "${@:2}"; do [ -f "$1/$file" ] || why+=("no $file"); done
  decide "targets_${name}_is_made" ${why[0]+"${why[@]}"}
}

# target_answers SYSTEM COMPILER LIBRARY RUNNER..: the programs of checks/library and same.c over a library, run by RUNNER.
target_answers() {
  local system=$1 name=${1//-/_} cc=$2 library=$3 program said
  shift 3
  for program in same "${!of_calls[@]}"; do
    if ! "$cc" -std=c99 -O2 "-I$system/include" -o "$system/$program.exe" "$top/checks/$([ "$program" = same ] && echo js || echo library)/$program.c" \
      "$system/lib/$library" >said 2>&1; then
      wrong "targets_${name}_$program" "not built: $(head -n 5 said | tr '\n' '/')"
    elif [ "$program" = same ]; then
      said=$(limited "$@" "$system/same.exe" 1 60 2>/dev/null | tr -d '\r' | diff expected - | head -n 3 | tr '\n' '/')
      decide "targets_${name}_answers_as_natively" ${said:+"$said"}
    else
      said=$(limited "$@" "$system/$program.exe" 1 "${of_calls[$program]}" 2>/dev/null | tr -d '\r' | tail -n 1)
      if [[ $said == *'roam.h says'* ]]; then ok "targets_${name}_$program"; else wrong "targets_${name}_$program" "'$said'"; fi
    fi
  done
}

if has targets_aarch64_linux aarch64-linux-gnu-gcc qemu-aarch64 &&
  target_is_made aarch64-linux lib/libroam.a lib/libroam.so; then
  target_answers aarch64-linux aarch64-linux-gnu-gcc libroam.a qemu-aarch64 -L /usr/aarch64-linux-gnu
fi
if has targets_x86_64_windows x86_64-w64-mingw32-gcc wine &&
  target_is_made x86_64-windows lib/libroam.a lib/roam.dll lib/roam.lib; then
  cp -- x86_64-windows/lib/roam.dll x86_64-windows/
  target_answers x86_64-windows x86_64-w64-mingw32-gcc roam.lib env WINEDEBUG=-all "WINEPREFIX=$PWD/wine" wine
fi
for system in aarch64-macos x86_64-macos; do
  if has "targets_${system//-/_}" llvm-nm && target_is_made "$system" lib/libroam.a lib/libroam.dylib; then
    mapfile -t why < <(
      diff <(llvm-nm -g --defined-only "$system/lib/libroam.dylib" | awk '{ print substr($3, 2) }' | sort) \
        <(sed -n 's/^[a-z_0-9]* \(roam_[a-z_]*\)(.*/\1/p' "$top/lib/roam.h" | sort) | grep '^[<>]'
    )
    decide "targets_${system//-/_}_exports_what_its_header_says" ${why[0]+"${why[@]}"}
  fi
done
