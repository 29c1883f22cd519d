# shellcheck shell=bash disable=SC2154,SC2016
# The repository's texts: what a script can see of its rules (CONTRIBUTING.md), beside test_texts.py (words, links, figures,
# the site) and test_pages.py (what is generated). Sourced by lines.sh.

cd -- "$top" || exit 1

# none NAME LINES: ok where LINES is empty, else FAILED with the first of them.
none() {
  if [ -z "$2" ]; then ok "$1"; else wrong "$1" "$(head -n 5 <<<"$2" | tr '\n' ' ')"; fi
}

crates=$(sed -n 's/#.*//; s/^\([a-z0-9_]*\).*:.*/\1/p' crates.txt | sort)

none no_handle_is_allowed "$(diff <(echo 'Handles allowed: none.') HANDLES)"

# lines_of_code FOLDER: the lines of a crate's code without blank lines, comments and modules for tests alone.
lines_of_code() {
  local file tests
  tests=$(awk 'test && /^mod / { gsub(/[;]/, "", $2); print $2 } { test = /^#\[cfg\(test\)\]$/ }' "$1"/src/lib.rt "$1"/src/main.rt 2>/dev/null)
  for file in "$1"/src/*.rt; do
    grep -qxF "$(basename "$file" .rt)" <<<"$tests" || cat "$file"
  done | grep -cv '^[[:space:]]*\(//.*\)\{0,1\}$'
}

# The law crates, whose functions have empty bodies.
laws=$(sed -n 's/^|\[`\([a-z0-9_]*\)`\].*)|law|.*/\1/p' docs/CRATES.md)

# The most edits of a crate in the gate: each costs it 6 to 40 seconds, and the first the crate's proof once more.
most_edits=5
# The lines of code from which on a crate has one there or, with a line in its README, in checks/edits.
least_code=20

for name in $crates; do
  why=()
  if [ ! -f "crates/$name/README.md" ]; then
    why+=("no README.md")
  elif [ "$(wc -l <"crates/$name/README.md")" -gt 120 ]; then
    why+=("README.md has more than 120 lines")
  fi
  grep -q "^|\[\`$name\`\](../crates/$name/README.md)|\(law\|code\)|" docs/CRATES.md || why+=("no row in docs/CRATES.md")
  edits=("crates/$name"/must-fail/*.edit)
  [ -e "${edits[0]}" ] || edits=()
  beside=("checks/edits/$name"/*.edit)
  [ -e "${beside[0]}" ] || beside=()
  [ $((${#edits[@]} + ${#beside[@]})) -eq 0 ] || echo "counted edits_of_$name $((${#edits[@]} + ${#beside[@]}))"
  says_none=$(grep -c '^No edit that must fail: [^ ]' "crates/$name/README.md")
  if [ "${#edits[@]}" -gt 0 ]; then
    [ "$says_none" -eq 0 ] || why+=("README.md says that no edit must fail")
  elif [[ $name != *_tests ]] && [ "$(lines_of_code "crates/$name")" -gt "$least_code" ]; then
    [ "$says_none" -eq 1 ] || why+=("no edit that must fail, and no line 'No edit that must fail: ..' in README.md")
    [ "${#beside[@]}" -gt 0 ] || why+=("no edit in must-fail/ or in checks/edits/$name")
  fi
  if [ "${#edits[@]}" -gt "$most_edits" ]; then
    why+=("${#edits[@]} edits that must fail")
  fi
  # A crate with tests is proved twice, so they stand in the crates of tests alone.
  if [[ $name != *_tests ]] && grep -rqE '^[[:space:]]*#\[test\]' "crates/$name/src"; then
    why+=("tests of its own")
  fi
  decide "crate_$name" ${why[0]+"${why[@]}"}
done

# The edits beside the gate: each was tried and is refused; on standard error, how many of them on other sources.
if has each_edit_beside_the_gate_is_refused python3 git; then
  none each_edit_beside_the_gate_is_refused "$(python3 checks/edits.py --check)"
fi

# What proofs of a crate cite of another crate's proofs is a law crate's; a code crate is used by its clauses alone.
# What the toolchain writes of a type by itself (that it may be dropped, or sent) is no lemma of a crate.
none lemmas_are_cited_of_law_crates_alone "$(
  grep -rnoE 'Rattle\.[a-z0-9_]+\.proofs\.[^ {]*' crates/*/specs crates/*/proofs crates/*/src 2>/dev/null |
    grep -vE '\.(TheLaws|TheSendSync)(\.|$)' |
    awk -F: -v crates="$crates" -v laws="$laws" '
      BEGIN { n = split(crates, k, "\n"); for (i = 1; i <= n; i++) own[k[i]] = 1; n = split(laws, k, "\n"); for (i = 1; i <= n; i++) law[k[i]] = 1 }
      { split($1, at, "/"); split($NF, of, "."); if (own[of[2]] && of[2] != at[2] && !law[of[2]]) print $1 ": " of[2] }'
)"

# The stored run of the program is that of the example, where both are there.
if [ -f crates/roam_cli/stdout ]; then
  none stored_run_is_the_example "$(diff crates/roam_cli/stdout examples/two-base-triangles/expected/report)"
fi

# What a reader of the two main contracts has to know: how many clauses they have, and to how many words they unfold
# (checks/words.py). Within the crates of the run, of Statement.antt and Moment.antt alone (the page of the contract), and of a frame
# within the crates of the engine. A word of geometry or of a format counts once, by its name: docs/REFERENCE.md and
# docs/DEFINITIONS.md have them. Of run_laws these are the lines of the report, the text of a certificate and of points,
# and turns. A fit that keeps points took 18 words: its words, its file in what stands after each status, and the best mesh of
# those that have the points as vertices, once by what is split and once by vertices. Certificates of such meshes took 14: their
# words, and their files and points in what stands after each status.
runs=run_words.specs.WordView,run_words.specs.ShowView,run_words.specs.CertifyView,run_words.specs.FitView,run_files,run_meshes,run_certify,run_engine,roam_run
for module in crates/run_laws/specs/*.antt; do
  module=$(basename "$module" .antt)
  case $module in ReportText | CertFile | PointFile | FitCertFile | Turns) ;; *) runs=$runs,run_laws.specs.$module ;; esac
done
engine=frame_loop,view_mesh,mesh_arrays,roam_mesh,deferred_loop,mesh_laws,view_priority,triangle_pool,bintree_addr
page=run_laws.specs.Statement,run_laws.specs.Moment
short() {
  local said
  said=$(python3 checks/words.py "$@") || tail -n 1 <<<"$said"
}
if has the_main_contracts_have_few_words python3; then
  none roam_has_ten_clauses "$(short crates/roam_run/src/run.rt roam --ensures 10 --most 270 --within "$runs")"
  none roam_has_a_page_of_words "$(short crates/roam_run/src/run.rt roam --most 63 --within "$page")"
  none a_frame_has_eight_clauses_and_few_words "$(short crates/frame_loop/src/frame.rt frame --ensures 8 --most 120 --within "$engine")"
fi

# The worked view of docs/REFERENCE.md is what its command prints.
if has the_worked_view_is_what_frustum_prints python3; then
  read -r -a words < <(grep '^python3 examples/frustum.py' docs/REFERENCE.md)
  none the_worked_view_is_what_frustum_prints \
    "$(diff <("${words[@]}") <(sed -n '/^python3 examples\/frustum.py/,/^Th/p' docs/REFERENCE.md | sed -n '/^noplanes$/,/^```$/p' | sed '$d'))"
fi

if git rev-parse --git-dir >/dev/null 2>&1; then
  none rt_files_stand_only_in_src "$(git ls-files '*.rt' | grep -vE '^crates/[a-z0-9_]+/src/')"
  none antt_files_stand_only_in_specs_and_proofs "$(git ls-files '*.antt' | grep -vE '^crates/[a-z0-9_]+/(specs|proofs)/')"
  none nothing_that_was_built_is_tracked "$(git ls-files 'crates/*/out/*')"
  none no_path_of_one_machine "$(git grep -nE '/op[t]/|/wor[k]/|/far[m]/|/roo[t]/|/hom[e]/' -- .)"
  none no_citation_by_number "$(
    git grep -nE '\b(D[0-9]{1,2}|R[0-9]{1,2}|T[1-5]|W[0-9]{1,2}|H[1-4])\b|[Dd]ocument 0[0-9]|[Rr]equest [0-9]+|\b[Rr]ow [0-9]+\b|papers?/0[0-9]' \
      -- '*.rt' '*.antt' '*.md' '*.edit' '*.txt' '*.sh' .ci roam checks
  )"
  none no_hole_in_a_proof "$(git grep -nE '= \?$|↦ \?|\( *\? *\)' -- '*.antt')"
else
  skip tracked_files 'git is not there, or this is no checkout'
fi
