#!/bin/sh
# Looks at the layout and the rules of the Python and shell files: make lint. A tool that is not installed is named and
# passed over. `black .` and `shfmt -w FILE` lay files out.

cd "${0%/*}/.." || exit 1
failed=0

# Runs a tool with some words, if it is installed.
lint() {
  if ! command -v "$1" >/dev/null; then
    echo "$1: not installed"
  elif "$@"; then
    echo "$1: nothing to say"
  else
    failed=1
  fi
}

lint black --check --quiet --diff scripts tests bench examples
lint flake8 scripts tests bench
lint shellcheck scripts/*.sh examples/*/*.sh .ci/run
lint shfmt -i 2 -ci -d scripts/*.sh examples/*/*.sh .ci/run
exit $failed
