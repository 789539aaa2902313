# SPDX-License-Identifier: MIT OR Apache-2.0
# Part of tools/check/test-library: the traces and the bad requests on each platform that the library is built for, by the programs
# that run natively, built for that platform. What is not there is named.
# shellcheck disable=SC2086 # $warnings, $memcheck and their like are several words

# How the names of programs end: of Windows alone by something.
exe=""

# Builds both programs into a folder, over the library in another one, by a compiler with its words. Their names end with $exe.
build_for() {
    local to=$1 from=$2
    shift 2
    mkdir -p "$to"
    "$@" -std=c99 -O1 $warnings -I "$from" "$tests"/{replay,parse,make,print}.c "$from/libyarrowdoor.a" -o "$to/replay$exe"
    "$@" -std=c99 -O1 $warnings -I "$from" "$tests/fields.c" "$from/libyarrowdoor.a" -o "$to/fields$exe"
}

# The same over the shared library, which is found where it was linked.
build_shared_for() {
    local to=$1 from=$2
    shift 2
    "$@" -std=c99 -O1 $warnings -I "$from" "$tests"/{replay,parse,make,print}.c -L "$from" -lyarrowdoor -Wl,-rpath,"$from" \
        -o "$to/replay_shared$exe"
}

# The heap of the header's folder, and with more words that of the kit, does what the library expects of it.
check_heap() {
    cc -std=c99 -O1 $warnings -I include "$@" -o "$room/heap_calls"
    "$room/heap_calls"
}

# Runs both programs of a platform over all traces. The words before them run a program of that platform.
test_on() {
    local name=$1 folder=$2
    shift 2
    choose_all
    step "${#chosen[@]} traces in C: $name" agree "$@" "$folder/replay$exe"
    step "bad requests: $name" "$@" "$folder/fields$exe"
}

# Whether the library of a target is there, and of the sources that dist/ is of.
has_target() {
    local folder=$dist/$1
    [ -f "$folder/SHA256SUMS" ] || lacking "$1" "there is no dist/$1: run tools/build/library --target $1" || return 1
    diff <(grep '^sources: ' "$dist/PROOF") <(grep '^sources: ' "$folder/PROOF") > /dev/null &&
        cmp -s "$dist/yarrowdoor.h" "$folder/yarrowdoor.h" ||
        lacking "$1" "dist/$1 is of other sources than dist/"
}

# A processor that has nothing beyond the first of x86-64: without SSE3 and what came after it.
test_baseline() {
    [ "$(sed -n 's/^processor: //p' "$dist/PROOF")" = x86-64 ] ||
        lacking "a baseline x86-64 processor" "dist/ is built for another one" || return 0
    if has qemu-x86_64 "a baseline x86-64 processor"; then
        test_on "a baseline x86-64 processor" "$room" qemu-x86_64 -cpu qemu64
    fi
}

test_musl() {
    local to=$room/musl
    if has musl-gcc "musl"; then
        step "programs for musl" build_for "$to" "$dist" musl-gcc -static
        test_on "musl, linked statically" "$to"
        step "a program over the shared library, for musl" build_shared_for "$to" "$dist" musl-gcc
        step "${#chosen[@]} traces in C: musl, over the shared library" agree "$to/replay_shared"
    fi
}

test_aarch64() {
    local to=$room/aarch64 from=$dist/aarch64-linux gcc=aarch64-linux-gnu-gcc run="qemu-aarch64 -L /usr/aarch64-linux-gnu"
    if has "$gcc" aarch64-linux && has qemu-aarch64 aarch64-linux && has_target aarch64-linux; then
        step "dist/aarch64-linux is whole" check_sums "$from"
        step "programs for aarch64-linux" build_for "$to" "$from" "$gcc"
        test_on aarch64-linux "$to" $run
        step "a program over the shared library, for aarch64-linux" build_shared_for "$to" "$from" "$gcc"
        step "${#chosen[@]} traces in C: aarch64-linux, over the shared library" agree $run "$to/replay_shared"
        step "the heap: aarch64-linux" check_heap_of_aarch64 "$gcc" $run
    fi
}

check_heap_of_aarch64() {
    local gcc=$1
    shift
    "$gcc" -std=c99 -O1 $warnings -I include "$tests/heap_calls.c" -o "$room/aarch64/heap_calls"
    "$@" "$room/aarch64/heap_calls"
}

# Wine keeps what it needs below its prefix, and a server of its own runs on there, which would write while that is removed.
test_windows() {
    local exe=.exe to=$room/windows from=$dist/x86_64-windows gcc=x86_64-w64-mingw32-gcc PATH=$PATH:/usr/lib/wine
    if has "$gcc" x86_64-windows && has wine64 x86_64-windows && has_target x86_64-windows; then
        export WINEPREFIX=$room/wine WINEDEBUG=-all DISPLAY=
        trap '/usr/lib/wine/wineserver64 -k || true; rm -rf "$room"' EXIT
        step "dist/x86_64-windows is whole" check_sums "$from"
        step "programs for x86_64-windows" build_for "$to" "$from" "$gcc" -D__USE_MINGW_ANSI_STDIO=1
        test_on "x86_64-windows, under wine" "$to" wine64
        step "a program over yarrowdoor.dll" build_shared_for "$to" "$from" "$gcc" -D__USE_MINGW_ANSI_STDIO=1
        cp "$from/yarrowdoor.dll" "$to"
        step "${#chosen[@]} traces in C: x86_64-windows, over yarrowdoor.dll" agree wine64 "$to/replay_shared$exe"
    fi
}

# The toolchain in which a script stands for the compiler is a copy: what is written there is not written into the kit, whose files
# may be links, also to one another.
check_copied_toolchain() (
    kit=$room/kit room=$room/copied
    mkdir -p "$kit/toolchain/bin" "$kit/toolchain/lib" "$room"
    echo 'echo "$0 $*"' > "$kit/compiler"
    chmod +x "$kit/compiler"
    ln -s ../../compiler "$kit/toolchain/bin/clang"
    ln -s clang "$kit/toolchain/bin/ld.lld"
    cp -a "$kit" "$room/before"
    . tools/build/parts/proved.sh
    copy_toolchain
    echo module > "$room/one.bc"
    [ "$(timeout 10 "$room/toolchain/bin/clang" -c "$room/one.bc")" = "$kit/toolchain/bin/clang -c $room/one.bc" ]
    cmp "$room/one.bc" "$room/module.bc"
    [ -z "$(find "$room/toolchain" -type l)" ]
    find "$room/toolchain" -type f -exec cp "$room/one.bc" {} ';'
    diff -r --no-dereference "$room/before" "$kit"
)

test_platforms() {
    step "the kit's toolchain is copied" check_copied_toolchain
    step "the heap, as the kit's" check_heap "$tests/heap_calls.c"
    if has rt "the heap of the kit"; then
        step "the heap of the kit" check_heap -DHEAP_OF_KIT -Wl,--wrap=malloc,--wrap=realloc,--wrap=free \
            "$tests/heap_calls.c" "$(dirname "$(rt doc)")/c/liblibc_c.a"
    fi
    if [ "$(uname -m)" = x86_64 ]; then
        test_baseline
        test_musl
        test_aarch64
        test_windows
    fi
}
