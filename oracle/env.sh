# Sourced by the other scripts, from the folder of this file: how to build here, and how to run what was built.
# On x86-64 that is cargo as it stands. Elsewhere there are two ways.
# For comparing, x86-64 again: Debian's cargo, rustc and cross linker, the x86-64 library of the same rustc unpacked in cross/, and an emulator.
# For measuring, and for a second comparison (here=yes), this machine: cargo as it stands, over the library of here.sh, since a time under an emulator says nothing.
native=yes
if [ -n "${here:-}" ]; then
  export TILLJINGLE_LIB=$PWD/here CARGO_TARGET_DIR=$PWD/target/here
  CARGO_BUILD_TARGET=$(rustc -vV | sed -n "s/^host: //p")
  export CARGO_BUILD_TARGET
  # the report program is for x86-64 all the same: an emulator runs it, over the kit's C library
  if [ "$(uname -m)" != x86_64 ]; then
    tools=$(cd "$(dirname "$(rt doc)")" && pwd)/toolchain
    export TILLJINGLE_RUNNER="qemu-x86_64 $tools/lib/ld-linux-x86-64.so.2 --library-path $tools/lib"
  fi
elif [ "$(uname -m)" != x86_64 ]; then
  native=
  export PATH="/usr/bin:$PATH" RUSTC=/usr/bin/rustc
  export CARGO_TARGET_X86_64_UNKNOWN_LINUX_GNU_LINKER=x86_64-linux-gnu-gcc
  export CARGO_TARGET_X86_64_UNKNOWN_LINUX_GNU_RUNNER="qemu-x86_64 -L /usr/x86_64-linux-gnu"
  export TILLJINGLE_RUNNER=$CARGO_TARGET_X86_64_UNKNOWN_LINUX_GNU_RUNNER
  CARGO_ENCODED_RUSTFLAGS=$(printf '%s\037' --cap-lints allow --sysroot)$PWD/cross/usr
  export CARGO_ENCODED_RUSTFLAGS
fi

# the program that was built, with these arguments
oracle() { cargo run --release --offline --quiet -- "$@"; }
