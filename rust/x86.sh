# shellcheck shell=sh disable=SC2034
# For `.`: how x86-64 programs are made of Rust here, and what starts them. Sets `x86_rustc` (the compiler; `x86_rustdoc`
# is its rustdoc), `x86_target` (its options for x86-64; without them it makes what this machine runs), `x86_start` (a
# command, or nothing) and `x86_missing` (what isn't at hand, or nothing).
#
# On x86-64 that is rustc. Elsewhere it is rustc where it has its standard library for x86-64, or else Debian's
# rustc-web with the library that tools/setup-x86 put into `x86_home`; the cross linker; and the emulator of Debian's
# qemu-user. The kit is for x86-64 alone, so that there the archives are built elsewhere and handed over (--archives).
x86_home=${SILLWANDER_X86:-/usr/local/lib/sillwander-x86}
x86_rustc=rustc
x86_target=''
x86_start=''
x86_missing=''
x86=x86_64-unknown-linux-gnu
x86_lacks() { x86_missing="${x86_missing:+$x86_missing, }$1"; }

if [ "$(uname -m)" != x86_64 ]; then
    x86_target="--target $x86 -C linker=x86_64-linux-gnu-gcc"
    if ! command -v rustc >/dev/null 2>&1 || [ ! -d "$(rustc --print sysroot)/lib/rustlib/$x86/lib" ]; then
        x86_rustc=/usr/bin/rustc
        x86_target="--sysroot $x86_home/sys $x86_target"
        if [ ! -x "$x86_rustc" ] || [ ! -d "$x86_home/sys/lib/rustlib/$x86/lib" ]; then
            x86_lacks "Rust's standard library for $x86"
        fi
    fi
    if command -v x86_64-linux-gnu-gcc >/dev/null 2>&1; then
        # An amd64 C library that is installed is the one that programs find: the cross one beside it would be mixed with it.
        x86_library=$(x86_64-linux-gnu-gcc -print-file-name=libc.so.6)
        if [ ! -e "$x86_library" ]; then
            x86_lacks "the C library of x86_64-linux-gnu-gcc"
        elif [ ! -e /lib64/ld-linux-x86-64.so.2 ]; then
            x86_start="-L $(dirname "$(dirname "$(readlink -f "$x86_library")")")"
        fi
    else
        x86_lacks "the linker x86_64-linux-gnu-gcc"
    fi
    if command -v qemu-x86_64 >/dev/null 2>&1; then
        x86_start="$(command -v qemu-x86_64) $x86_start"
    else
        x86_lacks "the emulator qemu-x86_64"
    fi
elif ! command -v rustc >/dev/null 2>&1; then
    x86_lacks rustc
fi
x86_rustdoc=${x86_rustc%rustc}rustdoc
