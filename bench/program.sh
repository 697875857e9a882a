# For the scripts that source it, here and in stress/: `top` is the repository, `room` a folder that goes with the script, `program` the program `pst`, and
# `built CRATE WORD..` the path of the program of a crate, which is proved and built first, by a run with these words. BUILT=FOLDER before a script's
# name takes the programs of that folder as they are.
set -euo pipefail
top="$(cd "$(dirname "${BASH_SOURCE[0]}")/.." && pwd)"
room="$(mktemp -d)"
trap 'rm -rf "$room"' EXIT

built() {
  local crate="$1"
  shift
  if [ -n "${BUILT:-}" ]; then
    echo "$BUILT/$crate"
  else
    (cd "$top/crates/$crate" && rt run -- "$@" > /dev/null)
    echo "$top/crates/$crate/out/$crate"
  fi
}

program="$(built pst check "$top/examples/counter.model")"
