# C programs for x86-64 by the kit's own compiler and linker, without any other, and their runs:
# natively, or under the kit's emulator. Read by `.`, in the repository's folder; work= is a folder
# for what is built.

command -v rt >/dev/null || { echo "rt is not here" >&2; exit 2; }
kit=$(cd "$(dirname "$(rt doc)")" && pwd)
tools=$kit/toolchain
loader=$tools/lib/ld-linux-x86-64.so.2
emulator=$tools/bin/qemu-x86_64
[ -x "$emulator" ] || emulator=''

run_it() { # PROGRAM WORD..
    ${emulator:+"$emulator"} "$loader" --library-path "$tools/lib" "$@"
}

# The library, as lib/build makes it or as JOURNAL_LIB names it.
library() {
    archive=${JOURNAL_LIB:-target/staticlib/libjournal.a}
    [ -z "${JOURNAL_LIB:-}" ] || return 0
    lib/build >"$work/library.log" 2>&1 || { cat "$work/library.log" >&2; exit 1; }
}

build() { # NAME FLAGS.. FILE.c.. [ARCHIVE]
    program=$work/$1 flags='' objects='' lib=$tools/lib
    shift
    for part; do
        case $part in
        *.c)
            object=$program.$(basename "$part" .c).o
            # shellcheck disable=SC2086
            "$tools/bin/clang" --target=x86_64-unknown-linux-gnu -O3 -fPIC -nostdinc -Wall -Wextra \
                -Werror -Ibench $flags -c -o "$object" "$part" || exit 1
            objects="$objects $object"
            ;;
        *.a) objects="$objects $part" ;;
        *) flags="$flags $part" ;;
        esac
    done
    # -z now: the loader binds memcpy before the program begins, and not on the stack of its first call
    # shellcheck disable=SC2086
    "$tools/bin/ld.lld" -pie -z now --dynamic-linker /lib64/ld-linux-x86-64.so.2 -o "$program" \
        "$lib/Scrt1.o" "$lib/crti.o" "$lib/crtbeginS.o" $objects \
        "$lib/libc.so.6" "$lib/libc_nonshared.a" "$lib/libgcc.a" "$lib/crtendS.o" "$lib/crtn.o"
}
