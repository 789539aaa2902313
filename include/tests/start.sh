# SPDX-License-Identifier: MIT OR Apache-2.0
# Part of tools/check/test-library: programs start that use the library through another shared library. glibc may bind the shared library
# before the C library then, since it names none.
# shellcheck disable=SC2086,SC2128,SC2178 # $warnings, $memcheck and their like are several words, and $program is no array here

# Runs a program, which a preloaded library may follow, with each way of binding. The words before it run a program of its platform.
starts() {
    local program=$1 preload=$2 now
    shift 2
    for now in "" 1; do
        if [[ ${1:-} == qemu-* ]]; then
            "$@" ${preload:+-E LD_PRELOAD="$preload"} ${now:+-E LD_BIND_NOW=1} "$program" || return 1
        else
            env ${preload:+LD_PRELOAD="$preload"} ${now:+LD_BIND_NOW=1} "$program" || return 1
        fi
    done
}

# A library over the library, which a program links first, last, beside the library, or finds before it by LD_PRELOAD.
check_starts() {
    local to=$1 from=$2 cc=$3 run
    shift 3
    run=("$@")
    # shellcheck disable=SC2054,SC2206 # $warnings is several words, and the linker takes commas
    local words=(-std=c99 -O1 $warnings -I "$from" -I "$tests/start") paths=(-L "$to" -Wl,-rpath,"$to" -L "$from" -Wl,-rpath,"$from")
    # shellcheck disable=SC2054 # the linker takes commas
    local all=(-Wl,--no-as-needed)
    mkdir -p "$to"
    "$cc" "${words[@]}" -fPIC -shared "$tests/start/user.c" "${paths[@]}" -lyarrowdoor -o "$to/libuser.so"
    "$cc" "${words[@]}" "$tests/start/main.c" "${paths[@]}" -luser -o "$to/alone"
    "$cc" "${words[@]}" "$tests/start/main.c" "${paths[@]}" "${all[@]}" -luser -lm -lc -o "$to/first"
    "$cc" "${words[@]}" "$tests/start/main.c" "${paths[@]}" "${all[@]}" -lm -lc -luser -o "$to/last"
    "$cc" "${words[@]}" "$tests/start/main.c" "${paths[@]}" "${all[@]}" -luser -lyarrowdoor -o "$to/beside"
    "$cc" "${words[@]}" "$tests/start/main.c" "${paths[@]}" "${all[@]}" -lyarrowdoor -luser -o "$to/behind"
    "$cc" "${words[@]}" -Wl,-z,lazy "$tests/start/main.c" "${paths[@]}" -luser -o "$to/lazy"
    "$cc" "${words[@]}" -DPRELOADED "$tests/start/main.c" -o "$to/preloaded"
    for program in alone first last beside behind lazy; do
        starts "$to/$program" "" "${run[@]}" || { echo "$program: $?"; return 1; }
    done
    starts "$to/preloaded" "$to/libuser.so" "${run[@]}"
}

# The same by what the installed library says of itself.
check_starts_by_cmake() {
    cmake -S "$tests/start" -B "$room/start_cmake" -DCMAKE_PREFIX_PATH="$installed"
    cmake --build "$room/start_cmake"
    starts "$room/start_cmake/main_shared" "" && starts "$room/start_cmake/main_yarrowdoor" ""
}

check_starts_by_pkg_config() {
    local words to=$room/start_pc libdir
    export PKG_CONFIG_PATH=$installed/lib/pkgconfig
    libdir=$(pkg-config --variable=libdir yarrowdoor)
    eval "words=($(pkg-config --cflags --libs yarrowdoor))"
    mkdir -p "$to"
    cc -std=c99 $warnings -I "$tests/start" -fPIC -shared "$tests/start/user.c" "${words[@]}" -Wl,-rpath,"$libdir" -o "$to/libuser.so"
    cc -std=c99 $warnings -I "$tests/start" "$tests/start/main.c" -L "$to" -Wl,-rpath,"$to" -luser -o "$to/main"
    starts "$to/main" ""
}

# The same over what the packages for Debian put into a system: as dpkg has installed them into an empty folder, which takes the rights
# of root, or as they are unpacked.
check_starts_by_packages() {
    local system=$room/debs/root deb
    if [ ! -d "$system/usr" ]; then
        system=$room/debs/system
        for deb in "$room"/debs/*_amd64.deb; do
            dpkg-deb --extract "$deb" "$system"
        done
    fi
    export C_INCLUDE_PATH=$system/usr/include
    check_starts "$room/start_deb" "$system/usr/lib/x86_64-linux-gnu" cc
}

# The memory functions of the shared library, beside those of the C library, by the tools whose names begin so.
check_memory() {
    local cc=${1:+$1gcc} name names=() run=("${@:2}")
    for name in memcpy memmove memset memcmp bcmp; do
        names+=(--redefine-sym "$name=own_$name")
    done
    "${cc:-cc}" -std=c99 -O2 -ffreestanding -fno-builtin -fno-tree-loop-distribute-patterns -c include/memory.c -o "$room/memory.o"
    "$1objcopy" "${names[@]}" "$room/memory.o"
    "${cc:-cc}" -std=c99 -O1 $warnings "$tests/memory.c" "$room/memory.o" -o "$room/memory"
    "${run[@]}" "$room/memory"
}

test_start() {
    local installed="$room/in stalled" # by test_installed, in installed.sh
    local arm=aarch64-linux-gnu-gcc emulator=(qemu-aarch64 -L /usr/aarch64-linux-gnu)
    step "memory functions" check_memory ""
    step "programs start over a library over the library" check_starts "$room/start" "$dist" cc
    if has musl-gcc "the start of programs over musl"; then
        step "programs start over a library over the library: musl" check_starts "$room/start_musl" "$dist" musl-gcc
    fi
    if [ "$(uname -m)" = x86_64 ] && has qemu-x86_64 "memory functions on a baseline x86-64 processor"; then
        step "memory functions: a baseline x86-64 processor" check_memory "" qemu-x86_64 -cpu qemu64
    fi
    if [ "$(uname -m)" = x86_64 ] && has "$arm" "the start of programs on aarch64-linux" &&
        has qemu-aarch64 "the start of programs on aarch64-linux" && has_target aarch64-linux; then
        step "memory functions: aarch64-linux" check_memory "${arm%gcc}" "${emulator[@]}"
        step "programs start over a library over the library: aarch64-linux" check_starts "$room/start_aarch64" \
            "$dist/aarch64-linux" "$arm" "${emulator[@]}"
    fi
    if has pkg-config "the start of programs by pkg-config"; then
        step "programs start over a library over the installed one, by pkg-config" check_starts_by_pkg_config
    fi
    if compgen -G "$room/debs/*_amd64.deb" > /dev/null; then
        step "programs start over a library over the packages for Debian" check_starts_by_packages
    fi
    if has cmake "the start of programs by CMake"; then
        step "programs start over a library over the installed one, by CMake" check_starts_by_cmake
    fi
}
