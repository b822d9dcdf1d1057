#!/usr/bin/env bash
# Runs the program `opal` with the words that it is given. On first use, and after an edit, it is proved and built (host/build).
set -u
top=$(cd "$(dirname "$0")" && pwd) || exit 2
program=$top/crates/opal/out/opal

# Whether a source of a crate is newer than the program.
stale() {
  [ -x "$program" ] || return 0
  [ -n "$(find "$top/crates" "$top/crates.txt" -path '*/out' -prune -o -type f \( -name '*.rt' -o -name '*.antt' -o -name crates.txt \) -newer "$program" -print -quit)" ]
}

if stale; then
  "$top/host/build" < /dev/null || exit 2
fi
exec "$program" "$@"
