# SPDX-License-Identifier: MIT OR Apache-2.0
# Part of tools/build/library: fills the folder $dist from $room/yarrowdoor.o.

# The memory functions of the shared library. None calls anything, itself neither: what a compiler makes of a loop, as of one that
# copies, would.
compile_memory() {
    local march=()
    [ "$target" != x86_64-linux ] || march=(-march="$cpu")
    "$cc" -std=c99 -O2 "${march[@]}" -fPIC -ffreestanding -fno-builtin -fno-tree-loop-distribute-patterns -fno-stack-protector \
        -fno-asynchronous-unwind-tables -fno-unwind-tables -U_FORTIFY_SOURCE -Wall -Wextra -Wpedantic -Wconversion \
        -Werror -c "$top/include/memory.c" -o "$room/memory.o"
    if "${tools}objdump" -r "$room/memory.o" | grep ' R_' | grep -Ev ' \.(bss|text)'; then
        echo "tools/build/library: a memory function of the shared library calls another one" >&2
        exit 1
    fi
}

# The shared library names no C library, so that it is loaded under each: what it needs, every C library has. Of that nothing may be
# an IFUNC, as memcpy is, since it may be bound before the C library is. The name that a linker looks for is no link, since `rt ci`
# refuses links everywhere below the top, ignored files too.
share() {
    local name=libyarrowdoor.so.$version
    compile_memory
    "$cc" -shared -nostdlib -o "$name" -Wl,-soname,"$name" -Wl,--version-script="$parts/yarrowdoor.map" -Wl,-z,relro,-z,now \
        -Wl,-z,noexecstack -Wl,--build-id=sha1 "$room/yarrowdoor.o" "$room/memory.o"
    if "${tools}objdump" -p "$name" | grep -w NEEDED; then
        echo "tools/build/library: the shared library names another one" >&2
        exit 1
    fi
    if "${tools}nm" --dynamic --undefined-only --format=posix "$name" | grep -Ev '^(malloc|realloc|free) '; then
        echo "tools/build/library: the shared library needs more of a C library than its heap" >&2
        exit 1
    fi
    cp "$name" libyarrowdoor.so
}

share_for_windows() {
    "$cc" -shared -static-libgcc -o yarrowdoor.dll -Wl,--out-implib,libyarrowdoor.dll.a -Wl,--no-insert-timestamp \
        "$room/yarrowdoor.o"
    echo "Outside of the verdict: the prover has no Windows among its targets. The proved functions were compiled for it by hand, \
from the module that the prover's compiler got for Linux, and are tested under wine." > OUTSIDE-OF-THE-VERDICT
}

# What is the same in each build of these sources.
proof() {
    echo "target: $target$([ "$target" != x86_64-windows ] || echo ', outside of the verdict')"
    echo "processor: $cpu"
    echo "proved with: $(rt version 2>&1 | head -n 1)"
    echo "sources: $(git -C "$top" describe --always --dirty --abbrev=40 --exclude '*' 2> /dev/null || echo unknown)"
    echo "what compiled crates/turn_c:"
    grep '^logic=proved ' "$room/rt.log"
    echo "the gate: $([ -n "$gate" ] && tail -n 1 "$gate" || echo 'no log was given')"
}

fill() {
    mkdir -p "$dist"
    cd "$dist"
    cp "$top/include/yarrowdoor.h" "$top/LICENSE" .
    "$top/tools/build/layout" yarrowdoor.h > yarrowdoor.json
    if ! grep -q "^ \"version\": \"$release\"," yarrowdoor.json; then
        echo "tools/build/library: the version of include/yarrowdoor.h is not $release, that of rust/Cargo.toml" >&2
        exit 1
    fi
    "${tools}ar" rcsD libyarrowdoor.a "$room/yarrowdoor.o"
    if [ "$target" = x86_64-windows ]; then share_for_windows; else share; fi
    proof > PROOF
    "$parts/configure" . . . '${pcfiledir}' '${prefix}' '${prefix}' . .
    find . -maxdepth 1 -type f ! -name SHA256SUMS -printf '%P\n' | LC_ALL=C sort | xargs sha256sum > SHA256SUMS
    cd "$top"
}
