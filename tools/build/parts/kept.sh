# SPDX-License-Identifier: MIT OR Apache-2.0
# Part of tools/build/library and tools/build/library-wasm: what earlier runs of `rt` left. They set $top, and $gate, a log or none.

# Whether the gate was run, and no source of a crate has changed since.
is_left() {
    [ -n "$gate" ] && [ -z "$(find "$top"/crates/*/{src,specs,proofs} -newer "$gate" -print -quit 2> /dev/null)" ]
}

# The crates below turn_c, by crates.txt, of which no library is kept.
without_library() {
    local crate
    awk '!/^#/ { split($0, sides, ":"); split(sides[1], names, " "); below[names[1]] = sides[2] }
        function visit(name, words, count, i) {
            count = split(below[name], words, " ")
            for (i = 1; i <= count; i++) {
                if (words[i] in below && !(words[i] in seen)) { seen[words[i]] = 1; print words[i]; visit(words[i]) }
            }
        }
        END { visit("turn_c") }' "$top/crates.txt" | while read -r crate; do
        [ -f "$top/crates/$crate/out/rlib/$crate.rlib" ] || echo "$crate"
    done
}

# Says what `rt lib`, which prints nothing until it ends, is about to prove from nothing.
announce_proofs() {
    local lacking
    lacking=$(without_library | paste -sd ' ')
    [ -z "$lacking" ] || echo "${0#"$top"/}: proved from nothing, which may take an hour, since no library of them is kept (an rt ci" \
        "that runs to its end leaves them; one that was killed may take them away): $lacking" >&2
}
