# SPDX-License-Identifier: MIT OR Apache-2.0
# Part of tools/build/library: joins $room/proved.a, the functions in C and the heap to one object, $room/yarrowdoor.o, in which only the
# exports can be seen, so that no other name clashes with one of the program.

# The functions of the header as symbols, memory that is overwritten before it is given back, and the heap where the kit has
# none for the target. Nothing that the compiler adds may need more than the C library's memory.
compile_c() {
    local words=(-std=c99 -O2 -fno-stack-protector -U_FORTIFY_SOURCE -Wall -Wextra -Wpedantic -Wconversion -Werror)
    heap=$room/heap.o
    case $target in
        x86_64-linux) heap=$kit/c/liblibc_c.a words+=(-fPIC -march="$cpu") ;;
        aarch64-linux) "$cc" "${words[@]}" -fPIC -c "$top/include/heap.c" -o "$heap" && words+=(-fPIC) ;;
        x86_64-windows) "$cc" -c "$parts/heap-windows.s" -o "$heap" ;;
    esac
    "$cc" "${words[@]}" -I "$top/include" -c "$top/include/yarrowdoor.c" -o "$room/header.o"
    "$cc" "${words[@]}" -c "$top/include/erase.c" -o "$room/erase.o"
}

join() {
    compile_c
    "${tools}objcopy" --redefine-sym malloc=erasing_malloc --redefine-sym realloc=erasing_realloc \
        --redefine-sym free=erasing_free "$heap" "$room/heap-erased"
    "$cc" -r -nostdlib -o "$room/all.o" -Wl,--whole-archive "$room/proved.a" "$room/heap-erased" "$room/header.o" "$room/erase.o"
    "${tools}objcopy" --wildcard --keep-global-symbol 'yarrowdoor_*' "$room/all.o" "$room/yarrowdoor.o"
    check_needs
    check_variables
}

# Names beside those of the memory are of the linker, or of Windows' compiler, which every program there has.
check_needs() {
    local more=_GLOBAL_OFFSET_TABLE_
    [ "$target" != x86_64-windows ] || more=___chkstk_ms
    "${tools}nm" --undefined-only --format=posix "$room/yarrowdoor.o" | cut -d ' ' -f 1 | sort > "$room/needs"
    if grep -Ev "^(malloc|realloc|free|memcpy|memmove|memset|memcmp|bcmp|$more)\$" "$room/needs"; then
        echo "tools/build/library: the library needs more than the C library's memory" >&2
        exit 1
    fi
}

# A client may move to another thread between two calls only if the library has no variables. The one that stands there is
# the heap's, of which only the address is used. A name that begins with a dot is that of a section, which may be empty.
check_variables() {
    if "${tools}nm" "$room/yarrowdoor.o" | grep -E ' [bBdDsS] ' | grep -Ev ' b nothing$| [bd] \.' ||
        "${tools}objdump" -h "$room/yarrowdoor.o" | awk '$2 ~ /^\.data($|\.[^r])/ && $3 !~ /^0*$/' | grep . ||
        "${tools}objdump" -h "$room/yarrowdoor.o" | grep -E '\.t(data|bss|ls)'; then
        echo "tools/build/library: the library has variables, or memory of a thread" >&2
        exit 1
    fi
}
