#!/usr/bin/env bash
# Reads and reports mutated captures by the static library and by what is written apart from it, after all set-up: bash oracle/fuzz.sh MINUTES [SEED]
# The last line gives the calls and the differences; any difference ends it with status 1. The same seed makes the same captures.
set -euo pipefail
cd "$(dirname "$0")"
./setup.sh
. ./env.sh
oracle fuzz "$@"
