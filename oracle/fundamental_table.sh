#!/usr/bin/env bash
# Prints the power of the fundamental and the nonactive power of currents that lag, and of distorted ones that don't, as tables in Markdown, after all set-up.
set -euo pipefail
cd "$(dirname "$0")"
./setup.sh
. ./env.sh
oracle fundamental
