#!/bin/sh
# Prints the checksum of the sources that the program is built of: the lines of crates.txt, the code, the definitions
# and the proofs of the crates that it stands on, and HANDLES. It is the same in each copy of the repository. With the
# word `crates` it prints those lines of crates.txt.
set -eu
LC_ALL=C
export LC_ALL

cd -- "$(dirname -- "$(readlink -f -- "$0")")/.."

# The lines of crates.txt for the program's crate and for those that it stands on.
crates() {
    awk '
        function need(name,    count, used, i) {
            if (name in needed || !(name in line)) return
            needed[name] = 1
            count = split(line[name], used, /[: ]+/)
            for (i = 2; i <= count; i++) need(used[i])
        }
        /^[a-z]/ { name = $0; sub(/[: ].*/, "", name); line[name] = $0; names[++number] = name }
        END { need("fragtree"); for (i = 1; i <= number; i++) if (names[i] in needed) print line[names[i]] }' crates.txt
}

# The files of these crates that a proof reads, each name ended by a null byte.
files() {
    crates | sed 's/[: ].*//' | while read -r crate; do
        for part in src specs proofs; do
            [ ! -d "crates/$crate/$part" ] || echo "crates/$crate/$part"
        done
    done | xargs sh -c 'exec find "$@" -type f "(" -name "*.rt" -o -name "*.antt" ")" -print0' sh | sort -z
}

if [ "${1-}" = crates ]; then
    crates
else
    { crates; cat HANDLES; files | xargs -0 sha256sum; } | sha256sum | sed 's/ .*//'
fi
