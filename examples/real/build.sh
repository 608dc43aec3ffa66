#!/bin/sh
# Builds bzip2 and lua of Debian 12's source packages for SPARC V8, over newlib and the soft-float routines of libgcc,
# and both again for this machine: OUT/bzip2.sparc, OUT/lua.sparc, OUT/bzip2.host and OUT/lua.host.
#
#     examples/real/build.sh OUT
#
# OUT is a folder outside the repository. apt fetches 108 MB of sources into it; the host's own lists stay as they are.
# What is there already isn't made again. It takes gcc-sparc64-linux-gnu, gcc, make, dpkg-dev and xz-utils.
set -e
LC_ALL=C
export LC_ALL
here=$(CDPATH="" cd -- "$(dirname -- "$0")" && pwd -P)
port=$here/port

stop() {
    echo "build.sh: $1" >&2
    exit 1
}

[ $# -eq 1 ] || stop "the one argument is a folder for what is built"
while read -r command package; do
    command -v "$command" >/dev/null || stop "there is no $command: install the package $package"
done <<END
apt-get apt
dpkg-source dpkg-dev
xz xz-utils
make make
gcc gcc
sparc64-linux-gnu-gcc gcc-sparc64-linux-gnu
END
keyring=/usr/share/keyrings/debian-archive-keyring.gpg
[ -r "$keyring" ] || stop "there is no $keyring: install the package debian-archive-keyring"
out=$(realpath -m -- "$1")
case $out/ in
"$(dirname "$(dirname "$here")")"/*) stop "$out stands in the repository: name a folder outside" ;;
esac
log=$out/log
mkdir -p "$out" && : >"$log" || stop "$out can't be written"

# quietly WORDS..: runs a command, whose lines go to the log
quietly() {
    nice "$@" >>"$log" 2>&1 || stop "$1 failed: see $log"
}

# The sources, by lists of apt that are OUT's own.
fetch() {
    mkdir -p "$out/apt/lists/partial" "$out/apt/archives/partial" "$out/packages"
    for part in debian debian-security; do
        suite=bookworm
        [ $part = debian ] || suite=bookworm-security
        echo "deb-src [signed-by=$keyring] http://deb.debian.org/$part $suite main"
    done >"$out/apt/sources.list"
    set -- -o Dir::Etc::SourceList="$out/apt/sources.list" -o Dir::Etc::SourceParts=- \
        -o Dir::State::Lists="$out/apt/lists" -o Dir::Cache="$out/apt" -o APT::Sandbox::User=root
    quietly apt-get "$@" update
    cd "$out/packages"
    quietly apt-get "$@" source --download-only bzip2 lua5.4 newlib gcc-12
    : >all
}

unpack() {
    rm -rf "$out/src"
    mkdir -p "$out/src"
    cd "$out/src"
    for package in bzip2 lua5.4 newlib; do
        quietly tar xf "$out/packages/${package}_"*.orig.tar.*
    done
    tar xOf "$out/packages/gcc-12_"*.orig.tar.* --wildcards 'gcc-12-*/gcc-12*.tar.xz' >gcc.tar.xz
    quietly tar xf gcc.tar.xz --wildcards 'gcc-*/libgcc/libgcc2.[ch]' 'gcc-*/libgcc/soft-fp/*' \
        'gcc-*/include/longlong.h'
    rm gcc.tar.xz
    for package in bzip2 lua newlib gcc; do
        mv "$package-"* "$package"
    done
}

# A compiler for this machine: SPARC V8 without floating point, no system, and newlib's headers.
make_compiler() {
    headers=$(sparc64-linux-gnu-gcc -print-file-name=include)
    cat >"$out/cc" <<END
#!/bin/sh
exec sparc64-linux-gnu-gcc -m32 -mcpu=v8 -msoft-float -mlong-double-64 -O2 -g \\
    -fno-pie -fno-stack-protector -fno-asynchronous-unwind-tables -ffunction-sections -fmacro-prefix-map=$out/= \\
    -U__linux__ -U__linux -Ulinux -U__unix__ -U__unix -Uunix -U__gnu_linux__ \\
    -nostdinc -isystem $headers -isystem $out/newlib/targ-include -isystem $out/src/newlib/newlib/libc/include "\$@"
END
    chmod +x "$out/cc"
}

make_newlib() {
    rm -rf "$out/newlib"
    mkdir -p "$out/newlib"
    cd "$out/newlib"
    quietly "$out/src/newlib/newlib/configure" --host=sparc-unknown-elf --disable-multilib \
        --disable-newlib-supplied-syscalls --disable-newlib-multithread --enable-newlib-io-long-long \
        --enable-newlib-io-c99-formats CC="$out/cc" CFLAGS= AS=sparc64-linux-gnu-as AR=sparc64-linux-gnu-ar \
        RANLIB=sparc64-linux-gnu-ranlib
    quietly make -j1
}

# What gcc calls for numbers of 64 bits and for floating point.
LONG='muldi3 ashldi3 ashrdi3 lshrdi3 cmpdi2 ucmpdi2 negdi2 udivdi3 divdi3 umoddi3 moddi3 udivmoddi4 clz clzsi2 clzdi2
    ctzsi2 ctzdi2 ffssi2 ffsdi2 popcount_tab popcountsi2 popcountdi2 bswapsi2 bswapdi2 powidf2'
FLOAT='add?f3 sub?f3 mul?f3 div?f3 neg?f2 eq?f2 le?f2 ge?f2 unord?f2 fix?fsi fixuns?fsi fix?fdi fixuns?fdi floatsi?f
    floatunsi?f floatdi?f floatundi?f'

make_libgcc() {
    rm -rf "$out/libgcc"
    mkdir -p "$out/libgcc/include"
    cd "$out/libgcc"
    cp "$port/sfp-machine.h" include
    # libgcc2.c takes these from gcc's own build; what it needs of them are names of C
    for header in tconfig coretypes tm libgcc_tm; do
        : >"include/$header.h"
    done
    printf '#include <limits.h>\n#include <stddef.h>\n' >include/tsystem.h
    gcc=$out/src/gcc
    set -- "$out/cc" -fbuilding-libgcc -DIN_LIBGCC2 -DHIDE_EXPORTS -DMIN_UNITS_PER_WORD=4 -DBITS_PER_UNIT=8 \
        -I include -I "$gcc/libgcc" -I "$gcc/libgcc/soft-fp" -I "$gcc/include" -c
    for name in $LONG; do
        quietly "$@" "-DL_$name" "$gcc/libgcc/libgcc2.c" -o "$name.o"
    done
    for name in $FLOAT; do
        for size in s d; do
            own=$(echo "$name" | sed "s/?/$size/")
            quietly "$@" "$gcc/libgcc/soft-fp/$own.c" -o "$own.o"
        done
    done
    quietly "$@" "$gcc/libgcc/soft-fp/extendsfdf2.c" "$gcc/libgcc/soft-fp/truncdfsf2.c"
    quietly sparc64-linux-gnu-ar rcs libgcc.a ./*.o
}

# make_program NAME SOURCE.. : NAME.sparc and NAME.host, of which the second is made last
make_program() {
    name=$1
    shift
    [ ! -f "$out/$name.host" ] || return 0
    rm -rf "$out/$name"
    mkdir -p "$out/$name"
    cd "$out/$name"
    quietly "$out/cc" -c "$@" "$port/start.S" "$port/system.c"
    quietly sparc64-linux-gnu-gcc -m32 -mcpu=v8 -nostdlib -static -no-pie -Wl,-z,noexecstack -Wl,--build-id=none \
        -Wl,--gc-sections ./*.o -Wl,--start-group "$out/newlib/libc.a" "$out/newlib/libm.a" "$out/libgcc/libgcc.a" \
        -Wl,--end-group -o "$out/$name.sparc"
    quietly gcc -O2 -g "$@" -lm -o "$out/$name.host"
}

[ -f "$out/packages/all" ] || fetch
[ -d "$out/src/gcc" ] || unpack
make_compiler
[ -f "$out/newlib/libm.a" ] || make_newlib
[ -f "$out/libgcc/libgcc.a" ] || make_libgcc
bzip2=$out/src/bzip2
make_program bzip2 "$bzip2/blocksort.c" "$bzip2/huffman.c" "$bzip2/crctable.c" "$bzip2/randtable.c" \
    "$bzip2/compress.c" "$bzip2/decompress.c" "$bzip2/bzlib.c" "$bzip2/bzip2.c"
# all of lua but its compiler's own program
set --
for source in "$out"/src/lua/src/*.c; do
    [ "$(basename "$source")" = luac.c ] || set -- "$@" "$source"
done
make_program lua "$@"
echo "$out/bzip2.sparc $out/lua.sparc"
