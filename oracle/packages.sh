# Sourced by the scripts that install packages, from this folder: install NAME.. for those that are absent, and what a machine that is not x86-64 needs to
# build and run for it.
as_root() { if [ "$(id -u)" = 0 ]; then "$@"; else sudo "$@"; fi; }
installed() { dpkg-query -W -f '${Status}' "$1" 2>/dev/null | grep -q '^install ok installed$'; }

# install NAME..: those of the packages that are absent
install() {
  local absent=() name
  for name; do installed "$name" || absent+=("$name"); done
  [ ${#absent[@]} = 0 ] && return
  as_root apt-get update -q
  as_root env DEBIAN_FRONTEND=noninteractive apt-get install -q -y --no-install-recommends "${absent[@]}"
}

# the x86-64 library of Debian's rustc, unpacked here: the machine's own list of architectures stays as it is
cross_library() {
  local have want state=$PWD/cross/apt
  want=$(dpkg-query -W -f '${Version}' rustc)
  have=$(cat cross/version 2>/dev/null || true)
  [ "$have" = "$want" ] && return
  rm -rf cross
  mkdir -p "$state/lists/partial" "$state/cache/archives/partial"
  local options=(-q -o APT::Architecture=amd64 -o APT::Architectures::=amd64 -o "Dir::State::lists=$state/lists" -o "Dir::Cache=$state/cache" -o APT::Sandbox::User=root)
  apt-get "${options[@]}" update
  (cd "$state" && apt-get "${options[@]}" download "libstd-rust-dev=$want")
  dpkg-deb -x "$state"/libstd-rust-dev_*.deb cross
  rm -rf "$state"
  echo "$want" > cross/version
}

# compilers, linker and emulator for x86-64 on another machine
cross_tools() {
  install cargo rustc gcc-x86-64-linux-gnu libc6-dev-amd64-cross qemu-user
  cross_library
}
