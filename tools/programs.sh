# What tools/run and tools/build share: the programs of this repository, and whether one is built.
top=$(cd "$(dirname "${BASH_SOURCE[0]}")/.." && pwd)

say() { echo "tools/$(basename "$0"): $*" >&2; }

programs() {
  for main in "$top"/crates/*/src/main.rt; do
    basename "$(dirname "$(dirname "$main")")"
  done
}

is_program() { [ -f "$top/crates/$1/src/main.rt" ]; }

# The proved program is built, and no source is newer.
is_built() {
  local program=$top/crates/$1/out/$1
  [ -x "$program" ] && [ -z "$(find "$top/crates" -path '*/out' -prune -o -type f -newer "$program" -print -quit)" ]
}
