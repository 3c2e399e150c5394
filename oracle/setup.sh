#!/usr/bin/env bash
# Makes all that the comparisons need: Debian's libm, the published Rust with its tail, the proved static library, the report program, the program over them.
# Only packages that are absent are installed; nothing else is fetched.
set -euo pipefail
cd "$(dirname "$0")"
. ./packages.sh

install librust-libm-dev
command -v cargo >/dev/null || install cargo rustc
. ./env.sh
[ -n "$native" ] || cross_tools
[ "$(uname -m)" = x86_64 ] || install qemu-user

ln -sfn "$(dirname "$(dpkg -L librust-libm-dev | grep '/Cargo.toml$' | head -n 1)")" libm
mkdir -p gen
text=../docs/src/src--src--signal--signal.rs.txt
# step 10 of calculate_metrics as far as its THD, with the highest order, at most 40, as a parameter
orders() {
  echo "impl<'a> Signal<'a> {"
  echo "    pub fn tail_thd(&mut self, highest: usize) {"
  echo "        let (n, sample_rate) = (self.num_samples as usize, self.num_samples as f32);"
  sed -n '/----- 10\. DFT-based/,/self\.thd = /p' "$text" | sed -e 's/ 16\.min(/ highest.min(/' -e 's/\[0\.0f32; 17\]/[0.0f32; 41]/'
  echo "}}}}}"
}
{ cat "$text" src/tail.rs; orders; } > gen/signal.new
cmp -s gen/signal.new gen/signal.rs || cp gen/signal.new gen/signal.rs
rm gen/signal.new

# the three decibel functions with the logarithm cut off: what they hand to it, as kind and ratio; and THD with the library's root in the place of libm's
published() { sed -n "/^pub fn compute_$1(/,/^}/p" "$text"; }
for name in snr sinad sfdr; do published $name; done |
  sed -e 's/^pub fn compute_/pub fn cut_/' -e 's/-> f32 {/-> (u8, f64) {/' -e 's/return 0\.0;/return (2, 0.0);/' \
    -e 's/(10\.0 \* libm::log10(\(.*\))) as f32/(0, \1)/' -e 's/20\.0 \* libm::log10f(\(.*\))/(0, (\1) as f64)/' \
    -e 's/^        120\.0$/        (1, 0.0)/' > gen/cut.new
published thd_from_spectrum |
  sed -e 's/^pub fn compute_thd_from_spectrum/pub fn thd_by_our_root/' -e 's/libm::sqrt(\(.*\)) as f32/unsafe { super::tj_sqrt64_narrowed(\1) }/' >> gen/cut.new
cmp -s gen/cut.new gen/cut.rs || cp gen/cut.new gen/cut.rs
rm gen/cut.new

if [ -n "${here:-}" ]; then ./here.sh; else (cd ../crates/tilljingle && rt lib --cpu=x86-64); fi
(cd ../crates/report && rt run </dev/null >/dev/null)
cargo build --release --offline
