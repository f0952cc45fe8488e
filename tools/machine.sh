# Sourced by the scripts: how this machine compiles C and C++ for the library, which is x86-64 code, and runs it.
# CC, CXX: compilers for x86-64. RUN: what stands before an x86-64 program to run it. WATCH: the sanitizers that can be used.
# need COMMAND PACKAGE..: installs the packages of Debian where there is no such command. need_cxx: the same for CXX.
need() {
    command -v "$1" >/dev/null 2>&1 && return
    { apt-get update && apt-get install -y --no-install-recommends "${@:2}"; } >&2 && command -v "$1" >/dev/null 2>&1 && return
    echo "$1 is missing here, and Debian's ${*:2} could not be installed" >&2
    return 2
}
if [ "$(uname -m)" = x86_64 ]; then
    CC=gcc CXX=g++ RUN='' WATCH='-fsanitize=address,undefined'
    need_cxx() { need "$CXX" g++; }
else
    # Debian has an emulator. The address sanitizer does not run under it.
    CC=x86_64-linux-gnu-gcc CXX=x86_64-linux-gnu-g++ WATCH='-fsanitize=undefined'
    RUN="qemu-x86_64 -L /usr/x86_64-linux-gnu"
    need qemu-x86_64 qemu-user || exit 2
    need_cxx() { need "$CXX" g++-x86-64-linux-gnu; }
    need "$CC" gcc-x86-64-linux-gnu libc6-dev-amd64-cross || exit 2
fi
