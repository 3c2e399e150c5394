#!/usr/bin/env bash
# Runs the static library against the published Rust at full scale, after all set-up: bash oracle/compare.sh [AREA..]
# The last line gives the calls and the differences; any difference ends it with status 1.
set -euo pipefail
cd "$(dirname "$0")"
./setup.sh
. ./env.sh
oracle compare "$@"
