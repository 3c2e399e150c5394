#!/usr/bin/env bash
# Builds the static library, compiles the C example against the header and runs it; then the safe Rust calls and their tests.
# Only packages that are absent are installed. The library is for x86-64: elsewhere both are built by a cross compiler and run under an emulator.
set -euo pipefail
cd "$(dirname "$0")/../oracle"
. ./packages.sh
. ./env.sh
if [ -n "$native" ]; then
  compiler=cc
  command -v cc >/dev/null || install gcc libc6-dev
  command -v cargo >/dev/null || install cargo rustc
else
  compiler=x86_64-linux-gnu-gcc
  cross_tools
fi

cd ..
mkdir -p target
(cd crates/tilljingle && rt lib --cpu=x86-64)
"$compiler" -std=c99 -Wall -Wextra -Werror -Iinclude examples/probe.c crates/tilljingle/out/libtilljingle.a -o target/probe
${TILLJINGLE_RUNNER:-} target/probe
(cd rust && cargo test --offline --target x86_64-unknown-linux-gnu)
