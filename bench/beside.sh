# Sourced by run and cycles, with `here`, `root` and `machine` set: builds the program of src for that machine, as $b/$program ($p), and tests in
# `run` that all sides give the same replies. `bounds`: words of within for what is measured.
ORACLE=$(cd "${ORACLE:-$root/../shared/oracle}" && pwd) || { echo "${0##*/}: no oracle; name its folder in ORACLE" >&2; exit 2; }
mkdir -p "${ORACLE_OUT:=$root/target/oracle}"; ORACLE_OUT=$(cd "$ORACLE_OUT" && pwd); export ORACLE_OUT
SEEDS=$(cd "${SEEDS:-$ORACLE/../docs/src}" && pwd); export SEEDS
[ -f "$ORACLE_OUT/vendor/.whole" ] || "$ORACLE/build" scripted
[ -n "${KEY_AGENT_LIB:-}" ] || KEY_AGENT_LIB=$("$root/rust/archive" "$machine"); export KEY_AGENT_LIB
b=$root/target/bench; mkdir -p "$b"
. "$here/emulator.sh"
emulator "$machine"
sed -e "s|@BENCH@|$here|" -e "s|@ROOT@|$root|" -e "s|@ORACLE@|$ORACLE|" "$here/Cargo.toml.in" > "$b/Cargo.toml"
[ -f "$b/Cargo.lock" ] || cp "$ORACLE/real/Cargo.lock" "$b/Cargo.lock"
chmod u+w "$b/Cargo.lock"
target=$machine-unknown-linux-gnu program=bench.$machine run=() build=$b/build
if [ "$machine" != "$(uname -m)" ]; then
    # RUSTC counts for what is built for this machine too: a folder of its own
    RUSTC=$("$here/rust-for" "$machine") upper=${target//-/_} run=("qemu-$machine") build=$b/build.$machine; export RUSTC
    export "CARGO_TARGET_${upper^^}_LINKER=$(compiler "$machine")" "CC_$upper=$(compiler "$machine")"
fi
# static and at fixed places: the emulator is told where the functions are. Loops are aligned, since by where they lie alone the table's test took
# from 410 to 660 ns; that is a few instructions more for the Rust sides.
export RUSTFLAGS='-C target-feature=+crt-static -C relocation-model=static -C llvm-args=-align-all-functions=6 -C llvm-args=-align-loops=64'
(cd "$b" && CARGO_HOME="$ORACLE_OUT/cargo-home" \
    cargo build -q --release --offline --target "$target" --target-dir "$build" \
    --config 'source.crates-io.replace-with="vendored"' --config "source.vendored.directory=\"$ORACLE_OUT/vendor\"")
cp "$build/$target/release/bench" "$b/$program"
p=$b/$program
"${run[@]}" "$p" agree
bounds=began=$(at "$p" began),ended=$(at "$p" ended),measured=$(at "$p" measured)
