# SPDX-License-Identifier: MIT OR Apache-2.0
# Part of tools/check/test-library: callers pass no memory that is not initialised, also where the library only writes.
# shellcheck disable=SC2086 # $warnings, $memcheck and their like are several words

# The library with functions before its own that have valgrind look at what is passed in, in a folder as dist/.
build_checking() {
    local name words=() to=$room/checking
    mkdir -p "$to"
    for name in new call look read_message read_attribute; do
        words+=(--redefine-sym "yarrowdoor_$name=real_$name")
    done
    (cd "$to" && ar x "$dist/libyarrowdoor.a" && objcopy "${words[@]}" yarrowdoor.o)
    cc -std=c99 -O1 $warnings -I "$dist" -c "$tests/initialised.c" -o "$to/initialised.o"
    ar rcs "$to/libyarrowdoor.a" "$to/yarrowdoor.o" "$to/initialised.o"
    cc -std=c99 -O2 -g $warnings -I "$dist" examples/c/echo.c "$to/libyarrowdoor.a" -o "$to/echo_program"
    printf '#!/bin/sh\nexec valgrind --quiet --error-exitcode=9 %s "$@"\n' "$to/echo_program" > "$to/echo"
    chmod +x "$to/echo"
}

# The package for Rust over it. The program that runs traces makes each call.
build_checking_rust() {
    YARROWDOOR_DIST=$room/checking CARGO_TARGET_DIR=$room/checking/target cargo build --offline --manifest-path rust/Cargo.toml \
        --release --example replay
}

test_initialised() {
    if has valgrind "that memory passed in is initialised"; then
        step "a library that has memory looked at" build_checking
        if has turnserver "that memory passed in is initialised in C" && has turnutils_peer "that memory passed in is initialised in C"; then
            step "a relayed echo in C, whose memory is initialised" echo_by "HOST PORT" "$room/checking/echo"
        fi
        if has cargo "that memory passed in is initialised in Rust"; then
            step "the package for Rust over it" build_checking_rust
            chosen=("$room"/traces/repository-*)
            step "traces in Rust, whose memory is initialised" agree $memcheck "$room/checking/target/release/examples/replay"
        fi
    fi
}
