# Where the kit keeps what is for this machine, for the scripts beside this one: `kit`; `tools`, with its compiler and its C
# library; and `emulate`, the words that run the x86-64 program that follows them.
stop() { echo "$0: $*" >&2; exit 2; }
[ "$(uname -m)" = x86_64 ] || stop "the kit is for x86-64 and has no emulator for this machine, $(uname -m)"
rt=$(command -v rt) || stop "rt is not on the path"
kit=$(cd "$(dirname "$(readlink -f "$rt")")/.." && pwd -P)
tools=$kit/toolchain

# The loader is named because the program is linked with the kit's C library; rt runs programs in the same way.
emulate=("$tools/lib/ld-linux-x86-64.so.2" --library-path "$tools/lib")
