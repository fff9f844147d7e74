# What the commands of bench/ share; they source it. `top` is the repository's top, `out` the folder for what is made.
export LC_ALL=C
me=bench/${0##*/}
here=$top/bench
machine=$(uname -m)
target=x86_64-unknown-linux-gnu
flags=(--edition 2021 -C opt-level=3 -C codegen-units=1 --target $target)

missing() { # SENTENCE
    echo "$me: $1" >&2
    exit 3
}
need() { # PROGRAM PACKAGE
    command -v "$1" >/dev/null || missing "$1 is not on the PATH (Debian: $2)."
}

# ---- what is needed
need_compiler() {
    if [ "$machine" = x86_64 ]; then
        cc=${CC:-gcc} binutils= emulator=()
    else
        cc=${CC:-x86_64-linux-gnu-gcc} binutils=x86_64-linux-gnu- emulator=(qemu-x86_64)
        need qemu-x86_64 qemu-user
    fi
    need "$cc" "gcc libc6-dev, or gcc-x86-64-linux-gnu libc6-dev-amd64-cross"
    need python3 python3
    need "${binutils}objdump" "binutils, or binutils-x86-64-linux-gnu"
}
need_counter() {
    need_compiler
    if [ "$machine" = x86_64 ]; then need valgrind valgrind; else need gcc "gcc libc6-dev"; fi
}
need_rust() {
    local libs
    rustc=${RUSTC:-rustc}
    need "$rustc" "rustc-web"
    libs=$("$rustc" --print target-libdir --target $target)
    compgen -G "$libs/libstd-*.rlib" >/dev/null || missing "$rustc has no standard library of x86-64 (Debian: libstd-rust-web-dev:amd64)."
}

# ---- the published Rust, as a crate of its own; oracle/cut.rs deletes the lines that name files which aren't there
rust_crate() {
    local src=${RUST_SRC:-$top/../shared/docs/src} m
    [ -f "$src/src/ie/fseid.rs" ] || missing "the published Rust is not there: no file $src/src/ie/fseid.rs (give its folder in RUST_SRC)."
    src=$(cd "$src" && pwd)
    mkdir -p "$out/work"
    "$rustc" --edition 2021 -O -o "$out/cut" "$top/oracle/cut.rs"
    "$out/cut" "$src" "$out/work" "$here/driver"
    {
        for m in error types; do printf '#[path = "%s/src/%s.rs"]\npub mod %s;\n' "$src" $m $m; done
        for m in ie message; do printf '#[path = "%s/work/%s_mod.rs"]\npub mod %s;\n' "$out" $m $m; done
    } >"$out/work/pfcp.rs"
    "$rustc" "${flags[@]}" --cap-lints allow --crate-type rlib --crate-name pfcp -o "$out/libpfcp.rlib" "$out/work/pfcp.rs"
}

# ---- one static program. Debian's cross package has a libm.a that names files at places where they aren't.
program() { # NAME FILE LIBRARY ..
    local libm libraries=("${@:3}")
    mkdir -p "$out/fix"
    libm=$("$cc" -print-file-name=libm.a)
    if [ "$machine" != x86_64 ] && grep -aq '^GROUP' "$libm"; then sed -n '/^GROUP/s,[^ ]*/,,gp' "$libm" >"$out/fix/libm.a"; fi
    "$rustc" "${flags[@]}" --crate-name "$1" -C target-feature=+crt-static -C relocation-model=static -C linker="$cc" \
        -L "$out/fix" -L "$out" "${libraries[@]/#/-lstatic=}" --extern pfcp="$out/libpfcp.rlib" -o "$out/$1" "$here/driver/$2"
    "${binutils}objdump" -d "$out/$1" >"$out/program"
}

# ---- instructions: the program prints its sections, the counter puts down the count of each
by_callgrind() { # COUNTS SECTIONS PROGRAM [ARGUMENT ..]
    local counts=$1 sections=$2 part=1
    shift 2
    rm -f "$out"/cg "$out"/cg.*
    valgrind --tool=callgrind --compress-strings=no --dump-before=bench_mark --callgrind-out-file="$out/cg" "$@" >"$sections" 2>"$out/cg.err"
    while [ -f "$out/cg.$part" ]; do
        printf '%d %s\n' $((part - 1)) "$(sed -n 's/^summary: *//p' "$out/cg.$part")"
        part=$((part + 1))
    done >"$counts"
}
by_plugin() { # COUNTS SECTIONS PROGRAM [ARGUMENT ..]
    from_mark "$1" "$2" "$("${emulator[@]}" "$3" addr)" "${@:3}"
}
from_mark() { # COUNTS SECTIONS ADDRESS PROGRAM [ARGUMENT ..]
    local counts=$1 sections=$2 mark=$3 api
    shift 3
    for api in 1 2 3 4 5 6; do
        gcc -shared -fPIC -O2 -DAPI=$api -o "$out/count.so" "$here/count.c"
        rm -f "$counts"
        "${emulator[@]}" -plugin "$out/count.so,mark=$mark,out=$counts" "$@" >"$sections" 2>"$out/plugin.err" || true
        if [ -s "$counts" ]; then return; fi
    done
    missing "this qemu-x86_64 takes no plugin: $(head -n 1 "$out/plugin.err")"
}
count() { # COUNTS SECTIONS PROGRAM [ARGUMENT ..]
    if [ "$machine" = x86_64 ]; then by_callgrind "$@"; else by_plugin "$@"; fi
}
# A counter takes every byte of a `rep movsb` for an instruction, so memcpy is kept from using it.
count_runs() { # RUNS PROGRAM
    local turn
    rm -f "$out"/counts.*
    for turn in $(seq "$1"); do
        GLIBC_TUNABLES=glibc.cpu.x86_rep_movsb_threshold=1000000000 count "$out/counts.$turn" "$out/sections" "$2" count
    done
}

# ---- the toolchain, and archives that it writes
# where its compiler and its C library are
toolchain() {
    local rt
    rt=$(command -v rt) || return 0
    echo "$(dirname "$(dirname "$(readlink -f "$rt")")")/toolchain"
}
our_archive() {
    (cd "$top/crates/yerondatt" && rt lib --cpu x86-64)
}
# The crates in another folder, where further ones are added for a measurement. What was proved here isn't copied: rt begins with
# what it kept of the same crates.
copy_crates() { # FOLDER
    (cd "$top" && tar cf - --exclude=out crates.txt crates) | tar xf - -C "$1"
}

# ---- the lines above the tables
# the version of the kit's compiler, where its folder is found
kit_clang() {
    "$(toolchain)/bin/clang" --version 2>/dev/null | sed -n 's/^.*clang version \([0-9.]*\).*/, clang \1/p'
}
machine_lines() { # ARCHIVE ..
    echo "machine: $machine, $(lscpu | sed -n 's/^Model name: *//p' | head -n 1)"
    echo "rustc: $("$rustc" --version), $("$rustc" -vV | sed -n 's/LLVM version: /LLVM /p')"
    echo "kit: $(rt version 2>/dev/null || echo unknown)$(kit_clang || true)"
    if [ "$machine" = x86_64 ]; then echo "counter: $(valgrind --version), callgrind"; else echo "counter: $(qemu-x86_64 --version | head -n 1), count.c"; fi
    echo "archive: $(cat "$@" | sha256sum | cut -c 1-16), Rust: xandlom/rs-pfcp at 82e596c789"
}

# ---- a table into its place in RESULTS.md, up to the next heading
record_table() { # COMMAND TABLE
    awk -v marker="<!-- bench/$1 record -->" -v table="$2" '
        /^## / { inside = 0 }
        !inside
        $0 == marker { inside = 1; print ""; while ((getline line <table) > 0) print line; print "" }
        ' "$here/RESULTS.md" >"$out/RESULTS.md"
    cat "$out/RESULTS.md" >"$here/RESULTS.md"
}
