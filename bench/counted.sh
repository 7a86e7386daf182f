# shellcheck shell=sh
# Sourced by bench/vcpus and bench/waiting: what calls cost that the original hasn't, in executed x86-64 instructions, the difference between programs that make them 11 times
# and once, a tenth. The kit compiles and links them, so that the machine code is the same everywhere; valgrind's callgrind counts.
#
#     counted NAME.c ARCHIVE DEFINE..   the instructions of one time around, printed
here=$(cd "$(dirname "$0")" && pwd)
top=$(cd "$here/.." && pwd)
archives=''
[ "${1:-}" = --archives ] && archives=$2
[ -n "$archives" ] || archives=$("$top/tools/archives")
work=$(mktemp -d)
trap 'rm -rf "$work"' EXIT
tools=$(dirname "$(rt doc)")/toolchain
flags='-std=c11 -Wall -Wextra -Werror -O2'
whole() { # NAME.c ARCHIVE DEFINE..: the instructions of a process
    source=$here/$1 archive=$archives/$2
    shift 2
    # shellcheck disable=SC2086
    "$tools/bin/clang" --target=x86_64-unknown-linux-gnu $flags "$@" -fPIE -nostdinc -I "$top/tests/c/headers" -I "$top/include" -c "$source" -o "$work/o"
    "$tools/bin/ld.lld" -pie -dynamic-linker /lib64/ld-linux-x86-64.so.2 "$tools/lib/Scrt1.o" "$tools/lib/crti.o" "$tools/lib/crtbeginS.o" "$work/o" "$archive" \
        "$tools/lib/libc.so.6" "$tools/lib/libc_nonshared.a" "$tools/lib/crtendS.o" "$tools/lib/crtn.o" -o "$work/program"
    valgrind --tool=callgrind --callgrind-out-file=/dev/null "$tools/lib/ld-linux-x86-64.so.2" --library-path "$tools/lib" "$work/program" >"$work/said" 2>&1 ||
        { cat "$work/said" >&2; return 1; }
    sed -n 's/.*Collected : //p' "$work/said"
}
counted() {
    once=$(whole "$@" -DTIMES=1)
    many=$(whole "$@" -DTIMES=11)
    [ "${once:-0}" -gt 0 ] && [ "${many:-0}" -gt "$once" ] || { echo "bench: nothing was counted" >&2; return 1; }
    echo $(((many - once) / 10))
}
