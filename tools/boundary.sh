#!/usr/bin/env bash
# The C boundary as a caller sees it: builds the static library, compiles the program of tools/boundary against include/tilljingle.h, as C and as C++ with
# every warning an error, links and runs it. The last line counts the checks; one that is wrong ends it with status 1. Contracts go by the names of fields
# and parameters, and C by their places: no proof sees the header. Nothing but the kit is needed.
set -euo pipefail
cd "$(dirname "$0")/.."
command -v rt >/dev/null || { echo "The Rattle kit's command rt is not on the PATH." >&2; exit 2; }
kit=$(cd "$(dirname "$(rt doc)")" && pwd)
tools=$kit/toolchain
out=target/boundary archive=crates/tilljingle/out/libtilljingle.a
mkdir -p "$out"
(cd crates/tilljingle && rt lib --cpu=x86-64) >"$out/staticlib.log" 2>&1 || { cat "$out/staticlib.log" >&2; exit 1; }

# what the archive exports, the header declares and the checks call; the kit's compiler is its llvm-nm too, by the name that it is called by
names() { grep -oh '\btj_[a-z0-9_]*(' "$@" | tr -d '(' | sort -u; }
exported=$( (exec -a llvm-nm "$tools/bin/clang" --defined-only --extern-only "$archive") | sed -n 's/.* T //p' | sort -u)
diff <(echo "$exported") <(names include/tilljingle.h) || { echo "boundary: the header declares other calls than the archive has" >&2; exit 1; }
diff <(echo "$exported") <(names tools/boundary/*.c) || { echo "boundary: the checks make other calls than the archive has" >&2; exit 1; }

# what whoever links it has to bring
needed=$( (exec -a llvm-nm "$tools/bin/clang" --undefined-only "$archive") | sed -n 's/.* U //p' | sort -u | tr '\n' ' ')
[ "$needed" = "memcpy memset " ] || { echo "boundary: the archive needs from outside: $needed, and README says memcpy and memset" >&2; exit 1; }

compile=("$tools/bin/clang" --target=x86_64-unknown-linux-gnu -Wall -Wextra -Werror -pedantic -nostdinc -isystem tools/boundary/std -Iinclude)
objects=()
for file in tools/boundary/*.c; do
  object=$out/$(basename "$file" .c).o
  "${compile[@]}" -std=c11 -O1 -fPIE -c "$file" -o "$object"
  "${compile[@]}" -x c++ -std=c++17 -fsyntax-only "$file"
  objects+=("$object")
done
"$kit/bin/rattle-link" --target x86_64-unknown-linux-gnu --toolchain "$tools" -o "$out/boundary" "${objects[@]}" "$archive" \
  >"$out/link.log" 2>&1 || { cat "$out/link.log" >&2; exit 1; }

run=("$tools/lib/ld-linux-x86-64.so.2" --library-path "$tools/lib")
"${run[@]}" "$out/boundary"
