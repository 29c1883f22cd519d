# shellcheck shell=bash disable=SC2154
# The tables of this folder: test_*.py.
pytest_checks "$checks" --program="$program" --archive="${ROAM_ARCHIVE:-$top/crates/roam_c/out/libroam_c.a}"
