# How the tests compile for x86-64, for which the library ships, and run what they compiled: sets c, cxx, static and emulator. On another machine the
# emulator is the one with which the Rattle kit's rt runs programs, or else Debian's; a program that is not static finds its libraries where Debian's
# packages for such compilers put them. For bash; what is missing is installed where apt-get is there.
if [ "$(uname -m)" = x86_64 ]; then
    c=gcc cxx=g++ static="" emulator=""
    packages="gcc g++ libc6-dev pkg-config"
else
    c=x86_64-linux-gnu-gcc cxx=x86_64-linux-gnu-g++ static=-static
    emulator=${RATTLE_HOME:-$(dirname "$(dirname "$(readlink -f "$(command -v rt)")")")}/on/$(uname -m)/toolchain/bin/qemu-x86_64
    [ -x "$emulator" ] || emulator=qemu-x86_64
    export QEMU_LD_PREFIX=/usr/x86_64-linux-gnu
    packages="gcc-x86-64-linux-gnu g++-x86-64-linux-gnu libc6-dev-amd64-cross pkg-config qemu-user"
fi
for tool in $c $cxx $emulator pkg-config; do
    command -v "$tool" >/dev/null || { apt-get update && apt-get install -y $packages; } >/dev/null || exit 1
done
