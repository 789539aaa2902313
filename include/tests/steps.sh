# SPDX-License-Identifier: MIT OR Apache-2.0
# Part of tools/check/test-library and tools/check/test-release: runs their tests one by one, and notes what could not be tested.
# $room is a folder for files, and $missing what is printed at the end.

missing=""

# Notes what is not tested, and why.
lacking() {
    missing+="not tested: $1, since $2"$'\n'
    return 1
}

# Whether a tool is there. If not, what is not tested is noted.
has() {
    command -v "$1" > /dev/null || lacking "$2" "$1 is missing"
}

# Runs a test, which ends at the first command that fails. Where it fails, its output says why.
step() {
    local name=$1 start=$SECONDS
    shift
    # not as a condition, in which a command that fails would end nothing
    ("$@") > "$room/log" 2>&1 &
    if ! wait $!; then
        cat "$room/log" >&2
        echo "${0##*/}: failed: $name" >&2
        exit 1
    fi
    echo "ok: $name ($((SECONDS - start)) s)"
    grep -E '^[a-z]+: [0-9]+ ' "$room/log" || true
}

# A port of this host that nothing uses just now.
free_port() {
    python3 -c 'import socket
s = socket.socket(socket.AF_INET, socket.SOCK_DGRAM)
s.bind(("127.0.0.1", 0))
print(s.getsockname()[1])'
}
