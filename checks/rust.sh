# shellcheck shell=bash disable=SC2154
# The crate of lib/rust over the library that library.sh takes; ROAM_ARCHIVE names another archive. Sourced by lines.sh.

archive=${ROAM_ARCHIVE:-$top/crates/roam_c/out/libroam_c.a}
mkdir -- "$room/rust" || exit 1
if ! limited "$top/lib/build" "$room/rust/prefix" "$archive" >"$room/rust/said" 2>&1; then
  wrong the_library_of_the_rust_crate_is_built "$(tail -n 5 "$room/rust/said" | tr '\n' '/')"
  return
fi
cp -R -- "$top/lib/rust" "$room/rust/crate"
count=0
ROAM_LIB_DIR=$room/rust/prefix/lib CARGO_TARGET_DIR=$room/rust/target \
  limited cargo test --offline --quiet --manifest-path "$room/rust/crate/Cargo.toml" -- --format=pretty >"$room/rust/said" 2>&1
status=$?
while read -r name how; do
  count=$((count + 1))
  if [ "$how" = ok ]; then ok "rust_$name"; else wrong "rust_$name" "$how"; fi
done < <(sed -n 's/^test \([a-z_0-9]*\) \.\.\. \([A-Za-z]*\).*/\1 \2/p' "$room/rust/said")
if [ $status -ne 0 ] || [ $count -lt 5 ]; then
  wrong the_rust_crate_is_tested "status $status: $(tail -n 5 "$room/rust/said" | tr '\n' '/')"
fi
