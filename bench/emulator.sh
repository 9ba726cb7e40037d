# Sourced by beside.sh, calls and sound, with `root`, `here` and `b` (where things are built) set: counts instructions in an emulator, qemu-user with
# within.c.
. "$root/desk/ready.sh"

machines() { # machines WORDS..: both, where none is named
    local machine
    [ $# -gt 0 ] || set -- x86_64 aarch64
    for machine; do
        case $machine in x86_64 | aarch64) ;; *) echo "the core is compiled for x86_64 and aarch64, not for $machine" >&2; return 2 ;; esac
    done
    [ $# = 1 ] || [ -z "${KEY_AGENT_LIB:-}" ] || { echo 'KEY_AGENT_LIB goes with one machine' >&2; return 2; }
    echo "$@"
}

compiler() { # for the machine $1
    if [ "$1" = "$(uname -m)" ]; then echo cc; else echo "$1-linux-gnu-gcc"; fi
}

emulator() { # emulator MACHINE..: installs what is missing, and builds the plugin
    local machine gcc deb
    for machine; do
        gcc=x86-64 deb=amd64
        [ "$machine" = x86_64 ] || gcc=aarch64 deb=arm64
        command -v "qemu-$machine" > /dev/null || get qemu-user
        command -v "$(compiler "$machine")" > /dev/null || get "gcc-$gcc-linux-gnu" "libc6-dev-$deb-cross"
    done
    cc -shared -fPIC -O2 -Wall -Wextra "$here/within.c" -o "$b/within.so"
}

program() { # program MACHINE NAME: NAME.c over the core's archive for it, to NAME.MACHINE
    local lib=${KEY_AGENT_LIB:-}
    [ -n "$lib" ] || lib=$("$root/rust/archive" "$1") || return
    "$(compiler "$1")" -O2 -Wall -Wextra -static -no-pie -I "$root/include" "$here/$2.c" "$lib/libgateway.a" -o "$b/$2.$1"
}

at() { # at PROGRAM FUNCTION: its address, where it is a function of its own
    local address
    address=$(nm -C "$1" | awk -v name="$2" '{a = $1; $1 = $2 = ""; sub(/^ +/, "")} $0 == name {print a; exit}')
    [ -n "$address" ] || { echo "$1: $2 is no function of its own" >&2; return 1; }
    echo "$address"
}

# within MACHINE PROGRAM NAME=ADDRESS,.. WORDS..: the plugin's lines go to standard error. A plain processor is named, since libc copies by what it
# finds there; and there is no environment and a short name, since it copies by how the stack lies.
within() (
    machine=$1 program=$2 what=$3 cpu=qemu64
    [ "$1" = x86_64 ] || cpu=cortex-a53
    shift 3
    cd "$b" && exec env -i "$(command -v "qemu-$machine")" -cpu "$cpu" -plugin "./within.so,$what" "./$program" "$@"
)
