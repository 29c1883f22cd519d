# shellcheck shell=bash disable=SC2154
# The package for JavaScript (js/) over the module that lib/build makes of what the proof of roam_c has left: its tests in Node, its
# types, what docs/JAVASCRIPT.md says, and the answers of the native library, in Node and in a headless Chromium with the page of
# examples/web. ROAM_ARCHIVE names another archive, with roam_c.bc beside it. Sourced by lines.sh.

archive=${ROAM_ARCHIVE:-$top/crates/roam_c/out/libroam_c.a}
mkdir -p -- "$room/js/user" && cd -- "$room/js" || exit 1
if ! limited "$top/lib/build" "$PWD/prefix" "$archive" >said 2>&1 || ! limited "$top/lib/build" --npm "$PWD" "$archive" >>said 2>&1; then
  wrong js_package_is_made "$(tail -n 5 said | tr '\n' '/')"
  return
fi
ok js_package_is_made

# js_says NAME TEXT WORDS..: one command; its last line has to hold TEXT.
js_says() {
  local told status
  told=$(limited "${@:3}" 2>&1)
  status=$?
  if [ $status -eq 0 ] && [[ $(tail -n 1 <<<"$told") == *"$2"* ]]; then
    ok "$1"
  else
    wrong "$1" "exit status $status, '$(tail -n 15 <<<"$told" | head -c 900 | tr '\n' '/')'"
  fi
}

# js_block LANGUAGE: the page's first code in this language.
js_block() { awk -v begin="\`\`\`$1" '$0 == begin && !seen { inside = seen = 1; next } /^```/ { inside = 0 } inside' "$top/docs/JAVASCRIPT.md"; }

# As a new user: an empty folder, the tarball, and the page's lines as they stand.
cd user || exit 1
if ! npm install --offline --no-audit --no-fund --silent ../calfrewin-*.tgz >../said 2>&1; then
  wrong js_package_is_installed "$(tail -n 5 ../said | tr '\n' '/')"
  return
fi
js_block js >first.mjs
js_block ts >first.mts
cp -- "$top/checks/js/types.mts" .
js_says js_lines_of_the_docs_in_node 'off by at most' node first.mjs
types=(tsc --strict --noEmit --target es2022 --module nodenext --moduleResolution nodenext --lib es2022,dom)
js_says js_types_of_the_docs '' "${types[@]}" first.mts
js_says js_types '' "${types[@]}" types.mts

# What the tests and the page want of the repository, with the module in its place.
cd .. || exit 1
mkdir -p site/examples site/checks
cp -R -- "$top/js" site/js
cp -R -- "$top/examples/web" "$top/examples/javascript" "$top/examples/jacksboro" site/examples/
cp -R -- "$top/checks/js" site/checks/
cp -- user/node_modules/calfrewin/calfrewin.wasm site/js/
three=/usr/share/javascript/three/three.module.js # of libjs-three
[ ! -f "$three" ] || cp -- "$three" site/examples/javascript/
js_block html | sed 's|\./node_modules/calfrewin/|./js/|' >site/first.html

(cd site/js && limited node --expose-gc --test --test-reporter=tap test/*.test.js >"$room/js/tests" 2>&1)
awk '
  function name(from) { sub(from, ""); gsub(/[^A-Za-z0-9]+/, "_"); return "js_" $0 }
  /^ok [0-9]+ - / { print "ok " name("^ok [0-9]+ - ") }
  /^not ok [0-9]+ - / { it = name("^not ok [0-9]+ - ") }
  /^  error: / && it { sub(/^  error: */, ""); print "FAILED " it ": " $0; it = "" }' tests
[ "$(grep -c '^ok ' tests)" -ge 30 ] || wrong js_tests_come_to_their_end "$(tail -n 5 tests | tr '\n' '/')"

# The same answers as natively: of 200 random cases a checksum of all that each call writes.
if ! cc -std=c99 -O2 -Wall -Wextra -Werror -Iprefix/include -o same "$top/checks/js/same.c" prefix/lib/libroam.a >said 2>&1; then
  wrong js_native_cases_are_built "$(head -n 5 said | tr '\n' '/')"
  return
fi
./same 1 200 >native
js_says js_answers_as_natively '' bash -c 'node site/checks/js/same.js 1 200 | diff native -'

chromium=$(command -v chromium || command -v chromium-browser || command -v google-chrome) || chromium=
if [ -z "$chromium" ]; then
  skip js_page 'no Chromium is there (Debian: apt-get install chromium)'
  return
fi
mkdir -p pictures
head -n 20 native >few
CALFREWIN_LIBRARY=$PWD/prefix/lib/libroam.so limited python3 "$top/checks/js/page.py" "$PWD/site" "$chromium" "$PWD/pictures" "$PWD/few" >page 2>&1
sed 's/^\(ok\|FAILED\|skipped\) /&js_/' page
[ "$(grep -c '^ok ' page)" -ge 12 ] || wrong js_page_checks_come_to_their_end "$(grep -vc '^ok ' page) other lines: $(tail -n 3 page | tr '\n' '/')"
