# SPDX-License-Identifier: MIT OR Apache-2.0
# Part of tools/build/library: compiles the proved functions for the target into $room/proved.a, and puts what the prover printed into
# $room/rt.log.
# shellcheck disable=SC2154 # tools/build/library sets $cpu, $triple and $tools by its options

# Builds turn_c over the libraries that `rt ci` left in the folders of the crates, by the words with which it checks turn_c.
# Takes the kit's name of the target, the toolchain and the file to write.
over_gate() {
    local folder words=()
    for folder in "$top"/crates/*/out/rlib; do
        words+=(-L "dependency=$folder")
    done
    "$kit/bin/rattle" build --crate-name turn_c src/lib.rt --extern "std=$kit/rlibs/std.rlib" \
        --extern "turn_c_calls=$top/crates/turn_c_calls/out/rlib/turn_c_calls.rlib" -L "dependency=$kit/rlibs" "${words[@]}" \
        --antt-project "$kit/rattle/logic/antt-project.json" --logic-built "$kit/logic_built" --jobs 2 --links turn_c= \
        --crate-type staticlib --target "$1" --cpu "$cpu" --toolchain "$2" --backend llvm -o "$3"
}

# Runs a command, and where it fails prints what it said, and ends.
shown() {
    "$@" > "$room/rt.log" 2>&1 || { cat "$room/rt.log" >&2; exit 1; }
}

prove() {
    cd "$top/crates/turn_c"
    mkdir -p out
    rm -f out/libturn_c.a
    if [ "$target" = x86_64-windows ]; then
        is_left || { announce_proofs; shown rt lib --cpu "$cpu"; }
        prove_for_windows
    elif ! is_left; then
        prove_anew
    elif ! over_gate "$triple" "$kit/toolchain" "$room/proved.a" > "$room/rt.log" 2>&1; then
        echo "tools/build/library: it could not be built over what the gate left, and is proved anew, which takes minutes:" >&2
        tail -n 5 "$room/rt.log" >&2
        prove_anew
    fi
    cd "$top"
}

prove_anew() {
    announce_proofs
    shown rt lib --target "$triple" --cpu "$cpu"
    mv out/libturn_c.a "$room/proved.a"
}

# A copy of the kit's toolchain, links followed, so that nothing is written into the kit, with a script in place of its clang,
# which keeps the module that it is given.
copy_toolchain() {
    cp -rL "$kit/toolchain" "$room/toolchain"
    rm "$room/toolchain/bin/clang"
    cat > "$room/toolchain/bin/clang" << END
#!/bin/sh
for word; do
    case \$word in *.bc) cp "\$word" "$room/module.bc" ;; esac
done
exec "$kit/toolchain/bin/clang" "\$@"
END
    chmod +x "$room/toolchain/bin/clang"
}

# The kit has no Windows among its targets. The module that it hands to its compiler for Linux is kept, and compiled for Windows:
# by hand, so the verdict, which names Linux, does not cover it.
prove_for_windows() {
    copy_toolchain
    shown over_gate x86_64-unknown-linux-gnu "$room/toolchain" "$room/linux.a"
    "$kit/toolchain/bin/clang" -S -emit-llvm -Wno-override-module -x ir "$room/module.bc" -o "$room/module.ll"
    # Windows has its own layout, triple and probe of the stack
    sed -E -i '/^target (datalayout|triple) = /d; s/"probe-stack"="[^"]*"//g' "$room/module.ll"
    "$kit/toolchain/bin/clang" --target="$triple" -march="$cpu" -O3 -Wno-override-module -c -x ir "$room/module.ll" \
        -o "$room/proved.o"
    "${tools}ar" rcsD "$room/proved.a" "$room/proved.o"
}
