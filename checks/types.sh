# shellcheck shell=bash disable=SC2154
# Types of the package (python/) and of tools/, and the style of these, of lib/build and of the tables of checks.
# Sourced by lines.sh.

# clean NAME FOLDER WORDS..: ok where a tool finds nothing there.
clean() {
  local told
  if told=$(cd -- "$2" && PYTHONDONTWRITEBYTECODE=1 limited python3 -m "${@:3}" 2>&1); then ok "$1"; else wrong "$1" "$(head -n 5 <<<"$told" | tr '\n' '/')"; fi
}

cd -- "$top" || exit 1
clean the_package_has_sound_types python mypy --cache-dir="$room/mypy"
clean the_package_and_its_tests_are_laid_out python flake8 src tests
clean the_tools_have_sound_types . mypy --strict --cache-dir="$room/mypy" tools/*.py lib/*.py checks/run checks/edits.py bench/unit.py
clean the_tools_and_the_tables_are_laid_out . flake8 --max-line-length 130 tools lib lib/build bench/unit.py checks/setup checks/run checks/conftest.py checks/test_*.py \
  checks/edits.py checks/place.py checks/same.py checks/alike.py checks/random_runs.py checks/lines.py checks/fitters.py checks/cracks.py checks/mosaics.py checks/worlds.py
