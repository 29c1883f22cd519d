# shellcheck shell=bash disable=SC2154
# The rows of `fit` and of RTIN in docs/COMPARISON.md are what the program and rtin.py make of the Jacksboro grid today. Sourced by
# lines.sh.

mkdir -- "$room/compare" && cd -- "$room/compare" || exit 1
grid=$top/examples/jacksboro/grid.pgm
errors=(200 100 50 20)
budgets=(500 2000 5000 20000)

# thousands NUMBER: with a comma before the last three digits.
thousands() { sed 's/\([0-9]\)\([0-9]\{3\}\)$/\1,\2/' <<<"$1"; }

# row NAME LINE: whether docs/COMPARISON.md has this row.
row() { if grep -qxF -- "$2" "$top/docs/COMPARISON.md"; then ok "$1"; else wrong "$1" "docs/COMPARISON.md has no row '$2'"; fi; }

limited python3 "$checks/rtin.py" "$grid" error "${errors[@]}" budget "${budgets[@]}" >rtin.told 2>&1
fit_counts='' fit_errors='' rtin_counts='' rtin_errors='' why=()
for error in "${errors[@]}"; do
  read -r _ _ count _ < <(limited "$program" fit "$grid" out error "$error" 90)
  rtin=$(awk -v it="$error" '$1 == "error" && $2 == it { print $4 }' rtin.told)
  fit_counts+=" $(thousands "$count") |" rtin_counts+=" $(thousands "$rtin") |"
  [ "${count:-1}" -le "${rtin:-0}" ] || why+=("for an error of $error m fit has $count triangles, and RTIN $rtin")
done
for budget in "${budgets[@]}"; do
  read -r _ _ count _ _ _ _ _ _ _ error < <(limited "$program" fit "$grid" out budget "$budget" 90)
  rtin=$(awk -v it="$budget" '$1 == "budget" && $2 == it { print $6 }' rtin.told)
  fit_errors+=" $(awk -v it="${error:-0}" 'BEGIN { printf "%.1f", it }') m |" rtin_errors+=" $(awk -v it="${rtin:-0}" 'BEGIN { printf "%.1f", it }') m |"
  awk -v count="${count:-0}" -v budget="$budget" -v error="${error:-1}" -v rtin="${rtin:-0}" 'BEGIN { exit !(count <= budget && error <= rtin) }' ||
    why+=("with $budget triangles fit has $count and is off by $error m, and RTIN by $rtin m")
done
decide fit_is_never_worse_than_rtin ${why[0]+"${why[@]}"}
row the_triangles_of_fit_are_those_of_the_table "| \`roam fit\` |$fit_counts"
row the_triangles_of_rtin_are_those_of_the_table "| RTIN with the map of MARTINI, tuned |$rtin_counts"
row the_errors_of_fit_are_those_of_the_table "| \`roam fit\` |$fit_errors"
row the_errors_of_rtin_are_those_of_the_table "| RTIN with the map of MARTINI, tuned |$rtin_errors"
cd -- "$top" || exit 1
