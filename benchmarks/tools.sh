# What benchmarks/check, run and program share: a C compiler, and MPFR and GMP for it.
# Sourced by bash from the repository's root.  Everything lands below build/benchmarks; MPFR and GMP are those that the compiler
# finds, else Debian's packages, unpacked there and not installed.  Assumes an x86-64 machine, as the kit does, rt on the path, and
# apt-get where something is missing.
out=build/benchmarks
mkdir -p "$out"
peers=(benchmarks/mpfr_bracket.c benchmarks/mpfr_series.c benchmarks/mpfr_equation.c benchmarks/shortcut.c)

# need COMMAND PACKAGE..: installs the Debian packages where the command is missing.
need() {
    local command=$1
    shift
    command -v "$command" >/dev/null && return
    { apt-get update -qq && apt-get install -y -qq --no-install-recommends "$@"; } >/dev/null && command -v "$command" >/dev/null && return
    echo "benchmarks: $command is missing, and the packages $* could not be installed" >&2
    exit 1
}

need gcc gcc libc6-dev
need python3 python3

# get_mpfr: fetches the two packages, with lists and a cache of apt-get's own.
packages=$out/amd64/usr
get_mpfr() {
    if echo '#include <mpfr.h>' | gcc -E - >/dev/null 2>&1; then
        packages=
        return
    fi
    [ -e "$packages/lib/x86_64-linux-gnu/libmpfr.a" ] && return
    local own=$PWD/$out/apt package
    mkdir -p "$own/lists/partial" "$own/cache/archives/partial" "$own/packages"
    set -- -qq -o APT::Architectures::=amd64 -o APT::Sandbox::User= -o Dir::State::lists="$own/lists" -o Dir::Cache="$own/cache"
    apt-get "$@" update && (cd "$own/packages" && apt-get "$@" download libmpfr-dev:amd64 libgmp-dev:amd64) || exit 1
    for package in "$own"/packages/*.deb; do dpkg -x "$package" "$out/amd64" || exit 1; done
}

# compile PROGRAM SOURCE..: after get_mpfr.  With the unpacked packages it stands by itself: they have no shared library.
compile() {
    local program=$1 flags=() libraries=()
    shift
    if [ -n "$packages" ]; then
        flags=(-static "-I$packages/include" "-I$packages/include/x86_64-linux-gnu")
        libraries=("-L$packages/lib/x86_64-linux-gnu")
    fi
    gcc -std=c11 -O2 -Wall -Wextra "${flags[@]}" -o "$out/$program" "$@" "${libraries[@]}" -lmpfr -lgmp || exit 1
}

# make_pairs: 1,000 pairs of each kind for the loops, and the same as the bench program's proposals.
make_pairs() {
    local kind
    for kind in 38 58; do
        [ "$out/proposals$kind.bin" -nt benchmarks/pairs.py ] && continue
        python3 benchmarks/pairs.py $kind >"$out/pairs$kind.bin" || exit 1
        python3 benchmarks/pairs.py $kind proposals >"$out/proposals$kind.bin" || exit 1
    done
}
