#!/usr/bin/env bash
# The report on a capture: bash tools/report.sh < CAPTURE. Proves and builds the program where that isn't done yet, and runs it.
set -euo pipefail
cd "$(dirname "$0")/../crates/report"
command -v rt >/dev/null || { echo "The Rattle kit's command rt is not on the PATH." >&2; exit 2; }
# what is proved is said on standard error; rt's own run, on the crate's file stdin, prints nothing here
rt run >/dev/null </dev/null
exec out/report
