# SPDX-License-Identifier: MIT OR Apache-2.0
# Part of tools/check/test-library: the package for Rust and its callers.
# shellcheck disable=SC2086 # $warnings, $memcheck and their like are several words

# Nothing that links no program needs the library.
check_without_library() {
    for command in check doc; do
        YARROWDOOR_DIST=$room/none cargo "$command" --offline --manifest-path rust/Cargo.toml
    done
}

# A program for the original crate, in which one line was changed. Its first request has 40 bytes.
run_renamed() {
    [ "$(cargo run --offline --manifest-path "$tests/renamed/Cargo.toml")" = 40 ]
}

# The crates of Debian in place of the registry.
build_tokio() {
    cargo build --offline --manifest-path examples/rust-tokio/Cargo.toml --config 'source.crates-io.replace-with="debian"' \
        --config "source.debian.directory=\"$crates\""
}

# A wrong password is named within a second, by a program that takes HOST:PORT.
names_password() {
    local program=$1 server found started
    server=$(free_port)
    turnserver -n --no-tls --no-dtls --no-cli --lt-cred-mech -u user:pass -r realm -L 127.0.0.1 -p "$server" \
        --log-file "$room/turnserver.log" --pidfile "$room/turnserver.pid" &
    started=$!
    "$tests/wait-for" "$server" || true
    found=$(timeout 1 "$program" "127.0.0.1:$server" user other 127.0.0.1:9 "hello" 2>&1) || true
    kill "$started"
    wait "$started" || true
    echo "$found"
    [[ $found == *"the user name or the password is wrong"* ]]
}

# The example over tokio, where Debian's package of that crate is there.
test_tokio() {
    local crates=/usr/share/cargo/registry
    if compgen -G "$crates/tokio-1.*" > /dev/null; then
        step "cargo build: examples/rust-tokio" build_tokio
        step "a relayed echo over tokio, through coturn" echo_by HOST:PORT "$room/target/debug/echo-tokio"
        step "a wrong password is named over tokio, through coturn" names_password "$room/target/debug/echo-tokio"
    else
        missing+="not tested: the example over tokio, since there is no librust-tokio-dev"$'\n'
    fi
}

test_rust() {
    export CARGO_TARGET_DIR=$room/target YARROWDOOR_DIST=$dist
    step "cargo check and doc, without a library" check_without_library
    step "cargo test: the package and its documentation" cargo test --offline --manifest-path rust/Cargo.toml
    step "cargo build: the programs" cargo build --offline --manifest-path rust/Cargo.toml --release --example replay
    step "a program for the original crate" run_renamed
    step "cargo build: examples/rust" cargo build --offline --manifest-path examples/rust/Cargo.toml
    if has turnserver "the echo in Rust" && has turnutils_peer "the echo in Rust"; then
        step "a relayed echo in Rust, through coturn" echo_by HOST:PORT "$room/target/debug/echo"
        step "a wrong password is named in Rust, through coturn" names_password "$room/target/debug/echo"
        test_tokio
    fi
    choose_all
    step "traces in Rust" agree "$room/target/release/examples/replay"
    if has valgrind "leaks in Rust"; then
        choose_some
        step "traces in Rust, under valgrind" agree $memcheck "$room/target/release/examples/replay"
    fi
}
