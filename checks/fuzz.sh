# shellcheck shell=bash disable=SC2154
# Damages grids and scripts of a small corpus for FUZZ_SECONDS, by the seed FUZZ_SEED, and compares what the built program makes of
# them with fuzz.py and greedy.py. Where a case differs its files stay. Fewer than a hundred cases are too few.

folder=$(mktemp -d) || exit 1
if told=$(timeout -k 10 "$((${FUZZ_SECONDS:-20} + ${CHECK_SECONDS:-900}))" \
  python3 "$checks/fuzz.py" "$program" "$folder" "${FUZZ_SECONDS:-20}" "${FUZZ_SEED:-1}" 2>&1); then
  ok damaged_grids_and_scripts
  echo "${told##*$'\n'}"
  rm -rf -- "$folder"
else
  wrong damaged_grids_and_scripts "$(tail -n 7 <<<"$told" | tr '\n' '/') the files of cases that differ are in $folder"
fi
