#!/usr/bin/env bash
# Builds libtilljingle.a for a machine that is not x86-64, for measuring and for the second comparison (here=yes): the kit's own compiler is handed the same
# module, at the same level, for this machine's processor. Leaves here/libtilljingle.a. What the firmware links, and what compare.sh runs by itself, stays the
# x86-64 library.
set -euo pipefail
cd "$(dirname "$0")"
machine=$(uname -m)
kit=$(cd "$(dirname "$(rt doc)")" && pwd)
tools=$kit/toolchain

# a kit of links, in which only the compiler's name leads here; rt and rattle find the kit by where they stand, so these are copied
rm -rf here
mkdir -p here/kit/toolchain/bin
link_all() { local path; for path in "$1"/*; do case " $3 " in *" $(basename "$path") "*) ;; *) ln -s "$path" "$2/" ;; esac; done; }
link_all "$kit" here/kit "bin toolchain"
link_all "$tools" here/kit/toolchain bin
link_all "$tools/bin" here/kit/toolchain/bin clang
cp -r "$kit/bin" here/kit/bin
cat > here/kit/toolchain/bin/clang <<END
#!/usr/bin/env bash
exec python3 "$PWD/retarget.py" "$tools/bin/clang" "$machine-unknown-linux-gnu" "\$@"
END
chmod +x here/kit/toolchain/bin/clang

(cd ../crates/tilljingle && "$OLDPWD/here/kit/bin/rt" lib --cpu=x86-64)
mv ../crates/tilljingle/out/libtilljingle.a here/
