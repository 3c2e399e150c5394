#!/usr/bin/env bash
# Writes data/ and stdout of the programs crates/replay_* anew, after all set-up: inputs from fixed seeds, and what the published Rust answers; and lines
# with one field of an answer wrong. Its last two lines count both over all programs.
set -euo pipefail
cd "$(dirname "$0")"
./setup.sh
. ./env.sh
oracle replay
