# shellcheck shell=bash disable=SC2154
# The viewer, `calfrewin fly`: its server under right and wrong requests, and its page in a headless Chromium where that is
# there. The library is the one that library.sh takes; ROAM_ARCHIVE names another archive. Sourced by lines.sh.

archive=${ROAM_ARCHIVE:-$top/crates/roam_c/out/libroam_c.a}
if [ ! -f "$archive" ]; then
  wrong the_library_of_the_viewer_is_built "there is no crates/roam_c/out/libroam_c.a; run 'lib/build' or 'rt ci' first"
  return
fi
mkdir -- "$room/viewer" || exit 1
if ! limited "$top/lib/build" "$room/viewer/prefix" "$archive" >"$room/viewer/said" 2>&1; then
  wrong the_library_of_the_viewer_is_built "$(tail -n 5 "$room/viewer/said" | tr '\n' '/')"
  return
fi

chromium=$(command -v chromium || command -v chromium-browser || command -v google-chrome) || chromium=
words=("$top/examples/jacksboro/grid.pgm")
if [ -n "$chromium" ]; then
  words+=("$room/viewer/picture.png" "$chromium")
else
  skip viewer_page 'no Chromium is there (Debian: apt-get install chromium)'
fi
# It prints the lines of its checks itself, and names.txt has them; another line is an error.
while IFS= read -r line; do
  case $line in
  'ok '* | 'FAILED '*) printf '%s\n' "$line" ;;
  *) wrong viewer_checks_come_to_their_end "$line" ;;
  esac
done < <(CALFREWIN_LIBRARY=$room/viewer/prefix/lib/libroam.so limited python3 "$top/checks/viewer.py" "${words[@]}" 2>&1 || echo "status $?")
