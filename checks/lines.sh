# shellcheck shell=bash disable=SC2154
# How a part of the checks tells what it has found. checks/run begins each part by `bash lines.sh PART TOOL..`, with `top`,
# `checks`, `program`, `room` (a folder of the run) in its environment, and takes the lines of its output: 'ok NAME',
# 'FAILED NAME: why', 'skipped NAME: what is missing', 'ran TEST', 'counted WHAT NUMBER', and at last 'end of PART'.
set -u

ok() { printf 'ok %s\n' "$1"; }

wrong() { # NAME WHY
  printf 'FAILED %s: %s\n' "$1" "${2//$'\n'/ / }"
}

skip() { # NAME WHAT IS MISSING
  printf 'skipped %s: %s\n' "$1" "$2"
}

# decide NAME WHY..: ok where no reason is given, else FAILED with the reasons.
decide() {
  local name=$1
  shift
  if [ $# -eq 0 ]; then
    ok "$name"
    return
  fi
  local all
  all=$(printf '%s; ' "$@")
  wrong "$name" "${all%; }"
}

# has NAME TOOL..: whether these tools are there; else a line that says which one NAME wants.
has() {
  local tool
  for tool in "${@:2}"; do
    if ! command -v "$tool" >/dev/null; then
      skip "$1" "the command $tool is not there"
      return 1
    fi
  done
}

# limited WORDS..: a command that is ended after CHECK_SECONDS, with status 124.
limited() { timeout -k 10 "${CHECK_SECONDS:-900}" "$@"; }

# pytest_checks WORDS..: the checks that pytest finds (lines.py), as many at a time as there are processors.
pytest_checks() {
  local beside=() status
  if ! python3 -c 'import hypothesis, pytest' 2>/dev/null; then
    skip "$part" "Python's pytest or hypothesis is not there"
    return
  fi
  if [ -n "$names_only" ]; then
    beside=(--collect-only)
  elif python3 -c 'import xdist' 2>/dev/null; then
    beside=(-n "$(nproc)" --dist loadgroup --max-worker-restart 0)
  fi
  PYTHONPATH=$checks HYPOTHESIS_STORAGE_DIRECTORY=$room/hypothesis python3 -m pytest -q -p no:cacheprovider -p lines \
    ${beside[0]+"${beside[@]}"} --basetemp="$room/pytest" --lines=/dev/fd/3 "$@" 3>&1 >"$room/said" 2>&1
  status=$?
  [ $status -le 1 ] || wrong "${part}_come_to_their_end" "pytest ended with status $status: $(tail -n 5 "$room/said" | tr '\n' '/')"
}

part=$1
if has "$@"; then
  # shellcheck source=/dev/null
  . "$checks/$part.sh"
fi
printf '\nend of %s\n' "$part"
