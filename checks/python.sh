# shellcheck shell=bash disable=SC2154
# The tests of the package, and the examples of its docstrings.
pytest_checks -c "$top/python/pyproject.toml" "$top/python/tests" "$top/python/src"
