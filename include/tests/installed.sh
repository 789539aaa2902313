# SPDX-License-Identifier: MIT OR Apache-2.0
# Part of tools/check/test-library: the library as it is installed, found by pkg-config, CMake and cargo, and moved.
# shellcheck disable=SC2086,SC2154 # $warnings, $memcheck and their like are several words; who reads this sets $dist

# Runs the exchange of turn_replay by a program, which gets the same answers.
answers_trace() {
    "$@" < crates/turn_replay/stdin | cmp - crates/turn_replay/stdout
}

# What is installed in a folder, whose name has a space.
check_installed() {
    local lib=$installed/lib doc=$installed/share/doc/yarrowdoor
    tools/build/parts/install "$dist" "$installed" lib include/turn
    cmp "$dist/libyarrowdoor.a" "$lib/libyarrowdoor.a"
    cmp "$dist/yarrowdoor.h" "$installed/include/turn/yarrowdoor.h"
    cmp LICENSE "$doc/LICENSE"
    cmp "$dist/PROOF" "$doc/PROOF"
    [ "$(readlink "$lib/libyarrowdoor.so")" = libyarrowdoor.so.0 ]
    # staged, what the files say is the same as without
    DESTDIR=$room/staged tools/build/parts/install "$dist" "$installed" lib include/turn
    diff -r "$installed" "$room/staged/$installed"
    # its libraries may be elsewhere
    tools/build/parts/install "$dist" "$room/apart" "$room/libs"
    cmp "$dist/libyarrowdoor.a" "$room/libs/libyarrowdoor.a"
}

# Links by what pkg-config says of the folder in which it finds yarrowdoor.pc: to the archive and to the shared library.
link_installed() {
    local pc=$1 words to=$2
    export PKG_CONFIG_PATH=$pc
    [ "$(pkg-config --modversion yarrowdoor)" = "$(sed -n 's/^version = "\(.*\)"$/\1/p' rust/Cargo.toml)" ]
    ! pkg-config --exists 'yarrowdoor > 0.1.0' || return 1
    mkdir -p "$to"
    eval "words=($(pkg-config --cflags --libs yarrowdoor))"
    local sources=("$tests"/{replay,parse,make,print}.c) libdir
    libdir=$(pkg-config --variable=libdir yarrowdoor)
    cc -std=c99 $warnings "${sources[@]}" "${words[@]}" -Wl,-rpath,"$libdir" -o "$to/replay_shared"
    cc -std=c99 $warnings "${sources[@]}" "${words[0]}" "${words[1]}" "$libdir/libyarrowdoor.a" -o "$to/replay"
    ldd "$to/replay_shared" | grep -F "libyarrowdoor.so.0 => "
    answers_trace "$to/replay"
    answers_trace "$to/replay_shared"
}

link_by_cmake() {
    local prefix=$1 to=$2
    cmake -S "$tests/cmake" -B "$to" -DCMAKE_PREFIX_PATH="$prefix"
    cmake --build "$to"
    ldd "$to/replay_shared" | grep -F "libyarrowdoor.so.0 => $(realpath "$prefix")"
    ! ldd "$to/replay" | grep libyarrowdoor || return 1
    answers_trace "$to/replay"
    answers_trace "$to/replay_shared"
}

# The package for Rust, with no library beside it, over the one that pkg-config finds.
link_by_cargo() {
    local to="$room/a package" target="$room/a target"
    export PKG_CONFIG_PATH=$installed/lib/pkgconfig LD_LIBRARY_PATH=$installed/lib
    unset YARROWDOOR_DIST
    mkdir -p "$to"
    tar --exclude=target -c rust include/tests/renamed | tar -x -C "$to"
    [ "$(cargo run --offline --manifest-path "$to/include/tests/renamed/Cargo.toml" --target-dir "$target")" = 40 ]
    ldd "$target/debug/renamed" | grep -F "libyarrowdoor.so.0 => $installed/lib"
}

# A folder that was moved after it was installed for that.
move_installed() {
    tools/build/parts/install --relocatable "$dist" "$room/here" lib
    mkdir "$room/away"
    mv "$room/here" "$room/away/there"
    ! grep -rF "$room" "$room/away/there" --include='*.pc' --include='*.cmake' || return 1
}

# What a tarball has, in a folder with a space in its name, under pkg-config, CMake and cargo, and with the pages that its pages cite.
check_tree() {
    local to="$room/a tar/ball" page words
    tools/build/parts/tree . "$dist" "$to"
    (cd "$to" && sha256sum --check --quiet SHA256SUMS)
    find "$to" -name '*.md' -exec grep -ohE 'docs/([a-z]+/)?[A-Z-]+\.md' {} + | sort -u > "$room/cited"
    grep -qx docs/SECURITY.md "$room/cited"
    while read -r page; do
        [ -f "$to/$page" ] || { echo "there is no $page"; return 1; }
    done < "$room/cited"
}

use_tree() {
    local to="$room/a tar/ball" words app="$room/a tar/app"
    if command -v pkg-config > /dev/null; then
        eval "words=($(PKG_CONFIG_PATH=$to/lib/pkgconfig pkg-config --cflags --libs yarrowdoor))"
        cc -std=c99 $warnings "$tests"/{replay,parse,make,print}.c "${words[@]}" -Wl,-rpath,"$to/lib" -o "$room/replay_tree"
        answers_trace "$room/replay_tree"
    fi
    if command -v cmake > /dev/null; then
        link_by_cmake "$to" "$room/by_cmake_tree"
    fi
    if command -v cargo > /dev/null; then
        mkdir -p "$app"
        cp -r "$to/examples/rust/." "$app"
        sed -i 's#path = ".*rust"#path = "../ball/rust"#' "$app/Cargo.toml"
        (unset YARROWDOOR_DIST && cargo build --offline --manifest-path "$app/Cargo.toml" --target-dir "$room/a tar/target")
    fi
}

# Packages for both processors beside each other: what both have is the same, as dpkg asks of `Multi-Arch: same`. With the right to
# it they are installed into an empty folder.
check_packages() {
    local deb file to=$room/debs root=$room/debs/root first
    mkdir -p "$to/aarch64-linux" "$to/tree"
    cp -r "$dist" "$to/tree/dist"
    # where there is none of these sources, the same under that name
    if ! cmp -s "$dist/yarrowdoor.h" "$to/tree/dist/aarch64-linux/yarrowdoor.h"; then
        mkdir -p "$to/tree/dist/aarch64-linux"
        find "$dist" -maxdepth 1 -type f -exec cp {} "$to/tree/dist/aarch64-linux" ';'
        sed -i '1s/.*/target: aarch64-linux/' "$to/tree/dist/aarch64-linux/PROOF"
    fi
    git -C "$to/tree" init -q && git -C "$to/tree" -c user.name=a -c user.email=a@b commit -q --allow-empty -m a
    for target in x86_64-linux aarch64-linux; do
        tools/build/parts/deb "$to/tree" "$target" "$to"
    done
    for deb in "$to"/*.deb; do
        dpkg-deb --field "$deb" Multi-Arch | grep -qx same
        mkdir -p "$deb.files"
        dpkg-deb --extract "$deb" "$deb.files"
    done
    for deb in "$to"/*_amd64.deb; do
        (cd "$deb.files" && find . -type f) | while read -r file; do
            first=${deb%_amd64.deb}_arm64.deb.files/$file
            [ ! -f "$first" ] || cmp "$deb.files/$file" "$first" || exit 1
        done
    done
    [ "$(dpkg-deb --contents "$to"/libyarrowdoor0_*_amd64.deb | grep -c '/libyarrowdoor\.so\.0$')" = 1 ]
    ! dpkg-deb --contents "$to"/libyarrowdoor-dev_*_amd64.deb | grep '/libyarrowdoor\.so\.0$' || return 1
    [ "$(id -u)" != 0 ] || install_packages
}

install_packages() {
    mkdir -p "$root/var/lib/dpkg/info" "$root/var/lib/dpkg/updates" "$root/var/lib/dpkg/triggers"
    touch "$root/var/lib/dpkg/status"
    dpkg --root="$root" --add-architecture arm64
    dpkg --root="$root" --force-depends --force-script-chrootless -i "$to"/libyarrowdoor0_*.deb "$to"/libyarrowdoor-dev_*.deb
    [ -f "$root/usr/lib/x86_64-linux-gnu/libyarrowdoor.so.0" ]
    [ -f "$root/usr/lib/aarch64-linux-gnu/libyarrowdoor.so.0" ]
}

test_installed() {
    local installed="$room/in stalled"
    step "one version everywhere" tools/build/parts/versions "$dist"
    step "installed: all is there" check_installed
    step "installed: moved" move_installed
    if has pkg-config "an installed library by pkg-config"; then
        step "installed: by pkg-config" link_installed "$installed/lib/pkgconfig" "$room/by_pc"
        step "installed: by pkg-config, with the libraries apart" link_installed "$room/libs/pkgconfig" "$room/by_pc_apart"
        step "installed: by pkg-config, moved" link_installed "$room/away/there/lib/pkgconfig" "$room/by_pc_moved"
    fi
    if has pkg-config "an installed library by cargo" && has cargo "an installed library by cargo"; then
        step "installed: by cargo" link_by_cargo
    fi
    step "a tarball: all is there" check_tree
    step "a tarball in a folder with a space in its name" use_tree
    if [ "$(uname -m)" = x86_64 ] && has dpkg-deb "the packages for Debian"; then
        step "packages for both processors" check_packages
    fi
    if has cmake "an installed library by CMake"; then
        step "installed: by CMake" link_by_cmake "$installed" "$room/by_cmake"
        step "installed: by CMake, moved" link_by_cmake "$room/away/there" "$room/by_cmake_moved"
    fi
}
