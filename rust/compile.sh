# compile.sh CLANG FOLDER WORDS..: `module` lets rt call this in the place of its clang, CLANG, with WORDS. Where they compile the proved module, ours are
# added, on both machines alike. An export is one function with all that it calls, but for those of apart.csv: handed on from function to function, state,
# answers and outcome took more instructions than a short request does. Loops are aligned, so that their time does not hang on where they come to lie.
# The module as rt hands it over is kept in FOLDER as gateway.bc, and what LLVM's passes make of it as gateway.ll.
set -eu
clang=$1 kept=$2 rust=$(cd "$(dirname "$0")" && pwd) module=
shift 2
for word; do case $word in *.bc) module=$word ;; esac; done
case " $* " in
    *' -x ir '*) set -- "$@" -falign-loops=64 -mllvm -inline-threshold=100000 -mllvm "-forceattrs-csv-path=$rust/apart.csv" ;;
esac
if [ -n "$module" ]; then
    cp "$module" "$kept/gateway.bc"
    "$clang" "$@" -Wno-unused-command-line-argument -S -emit-llvm -o "$kept/gateway.ll"
fi
exec "$clang" "$@"
