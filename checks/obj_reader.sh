# shellcheck shell=bash disable=SC2154
# A stock reader of OBJ files counts what the report counts. Sourced by lines.sh; wants assimp (Debian's
# package assimp-utils).

name=a_stock_reader_counts_what_the_report_counts
mkdir -- "$room/$name" && cd -- "$room/$name" || exit 1
why=()
limited "$program" mesh "$top/examples/jacksboro/grid.pgm" "$top/examples/jacksboro/script" out 2000 90 >report || why+=("exit status $?")
read -r _ _ _ triangles _ vertices _ <report
limited assimp info out000001.obj >told 2>&1 || why+=("assimp refuses the mesh")
# count WORD: the number behind a word of what the reader told.
count() { sed -n "s/^$1:  *\([0-9]*\)$/\1/p" told; }
[ "$(count Faces)" = "$triangles" ] || why+=("faces: $(count Faces), not $triangles")
[ "$(count Vertices)" = "$vertices" ] || why+=("vertices: $(count Vertices), not $vertices")
decide "$name" ${why[0]+"${why[@]}"}

cd -- "$top" || exit 1
