# Read by the scripts of this repository (`. checks/needs.sh`), for two things that all of them do in one way.
#
#   head_comment FILE "$@"   where the first word is -h or --help, prints the comment at the head of FILE and ends with 0
#   needs WORD ..            looks for each before anything starts; names all that is missing, with how to get it, and ends
#                            with 2. rt, cargo, cc, cxx, python3, binutils and tshark are programs, `rand` is Debian's
#                            librust-rand-dev, `texts` the Rust's texts: their folder is put into DOCS_SRC as a full path

head_comment() {
    case ${2:-} in
    -h | --help)
        sed -n '2,${/^#/!q;s/^# \{0,1\}//p}' "$1"
        exit 0
        ;;
    esac
}

# What is missing of one need, and how to get it; nothing where it is there.
missing() {
    case $1 in
    rt) command -v rt >/dev/null || echo "rt, of the Rattle toolchain: put its folder on PATH" ;;
    cargo) command -v cargo >/dev/null || echo "cargo, of Rust 1.81 or later: https://rustup.rs" ;;
    git) command -v git >/dev/null || echo "git: Debian's git" ;;
    cc) command -v "${CC:-gcc}" >/dev/null || echo "${CC:-gcc}, a C compiler: Debian's gcc; CC names another" ;;
    cxx) command -v "${CXX:-g++}" >/dev/null || echo "${CXX:-g++}, a C++ compiler: Debian's g++; CXX names another" ;;
    python3) command -v python3 >/dev/null || echo "python3: Debian's python3" ;;
    binutils) command -v size >/dev/null || echo "size: Debian's binutils" ;;
    tshark) command -v tshark >/dev/null || echo "tshark: apt-get install tshark" ;;
    rand)
        [ -d /usr/share/cargo/registry/rand-0.8.5 ] ||
            echo "rand 0.8.5 under /usr/share/cargo/registry: apt-get install librust-rand-dev"
        ;;
    texts)
        [ -f "$DOCS_SRC/src/security_manager/pairing/legacy_central.rs" ] || cat <<END
the Rust's texts, trouble-host 0.8.0: unpack https://crates.io/api/v1/crates/trouble-host/0.8.0/download (tar -xzf), and
  name by DOCS_SRC the folder that has its src/; looked for in $DOCS_SRC
END
        ;;
    *) echo "$1: a need that checks/needs.sh does not know" ;;
    esac
}

needs() {
    local root word gaps
    root=$(cd "$(dirname "${BASH_SOURCE[0]}")/.." && pwd)
    DOCS_SRC=${DOCS_SRC:-$root/../trouble-host-0.8.0}
    gaps=$(for word in "$@"; do missing "$word" | sed '1s/^/missing: /'; done)
    if [ -n "$gaps" ]; then
        echo "${0##*/}: not begun." >&2
        echo "$gaps" >&2
        exit 2
    fi
    if [ -d "$DOCS_SRC" ]; then
        DOCS_SRC=$(cd "$DOCS_SRC" && pwd)
        export DOCS_SRC
    fi
}
