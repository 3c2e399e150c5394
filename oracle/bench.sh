#!/usr/bin/env bash
# Measures the static library beside the published Rust, after all set-up: bash oracle/bench.sh [AREA..]
# Without an area all are measured, and their rows take the place of this kind of machine's table in docs/BENCHMARKS.md.
# On a machine that is not x86-64 both are built for that machine (here.sh): a time under an emulator says nothing.
set -euo pipefail
cd "$(dirname "$0")"
here=
[ "$(uname -m)" = x86_64 ] || here=yes
export here
./setup.sh
. ./env.sh
oracle bench "$@" | tee gen/table.md
[ $# = 0 ] || exit 0
page=../docs/BENCHMARKS.md
awk -v table=gen/table.md -v start="<!-- the table of $(uname -m), written by oracle/bench.sh -->" '
  /^<!-- end of the table -->$/ { within = 0 }
  !within { print }
  $0 == start { within = 1; while ((getline row < table) > 0) print row }
' "$page" > gen/page.md
cp gen/page.md "$page"
