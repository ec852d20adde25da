# What gingercrag, release/take and release/check have in common: the name of a program, which is a sum over its sources and the
# toolchain that it is built with. They set `home`, the folder of the repository, and then read this file.

program=gingercrag-x86_64-linux

say() { printf '%s: %s\n' "${0##*/}" "$*" >&2; }

# the lines of crates.txt for the program's own crates: gingercrag, and all that stand below it
lines() {
    awk -F: '
        function take(name,   below, count, i) {
            if (name in taken || !(name in line)) return
            taken[name]
            count = split(substr(line[name], index(line[name], ":") + 1), below, " ")
            for (i = 1; i <= count; i++) take(below[i])
            print line[name]
        }
        /^[a-z]/ { split($1, words, " "); line[words[1]] = $0 }
        END { take("gingercrag") }' "$1/crates.txt"
}

# their folders
crates() { lines "$1" | sed -E 's|^([a-z0-9_]+).*|crates/\1|'; }

# their sources
sources() {
    local folder=$1
    shift
    (cd "$folder" && find $(crates .) -name out -prune -o -type f \( -name '*.rt' -o -name '*.antt' \) "$@")
}

# the name of the program of the sources in this folder that the toolchain with this version builds
name_of() {
    { printf '%s\n' "$2"; lines "$1"; sources "$1" -print0 | LC_ALL=C sort -z | (cd "$1" && xargs -0 sha256sum --); } | sha256sum | cut -c 1-64
}

# the name of the program in release/, and the version of the toolchain that built it
released_name() { sed -n 1p "$home/release/sources" 2>/dev/null; }
released_toolchain() { sed -n 2p "$home/release/sources" 2>/dev/null; }

# a program without its table of symbols, by the toolchain's own tool, so that the same program gives the same bytes
stripped() { (exec -a llvm-strip "$(dirname "$(rt doc)")/toolchain/bin/clang" --strip-all -o "$2" "$1"); }

# the files of release/ are those that were put there
is_whole() { (cd "$home/release" && sha256sum --check --status SHA256SUMS) 2>/dev/null; }
