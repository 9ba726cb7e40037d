# Sourced by start, test and ../install, with `root` set to the repository: installs what is missing (apt-get, through sudo where we are not root),
# makes the core's archive and builds the programs, in $built.

built=$root/rust/target/release

get() { # get PACKAGE..
    local sudo=()
    [ "$(id -u)" = 0 ] || sudo=(sudo)
    echo "desk: installing $*" >&2
    if ! { "${sudo[@]}" apt-get update -q && "${sudo[@]}" apt-get install -q -y --no-install-recommends "$@"; } >&2; then
        echo "desk: could not install $*: install it by hand and start again" >&2
        return 1
    fi
}

missing() { # the Debian packages of what is not there
    local crate
    command -v cargo > /dev/null || echo cargo rustc
    command -v cc > /dev/null || echo gcc libc6-dev
    command -v pkg-config > /dev/null || echo pkg-config
    [ -e /usr/include/openssl/ssl.h ] || echo libssl-dev
    command -v ssh-add > /dev/null || echo openssh-client
    for crate in openssl-0.10 nix-0.26 clap-4; do
        compgen -G "/usr/share/cargo/registry/$crate.*" > /dev/null || echo "librust-${crate%-*}-dev"
    done
}

building() { # a line every nine seconds, where cargo draws no bar
    local n=0
    [ ! -t 2 ] || return 0
    while sleep 9 > /dev/null 2>&1; do n=$((n + 9)); echo "desk: building, $n s" >&2; done
}

ready() {
    local packages status=0 ticker
    packages=$(missing)
    # shellcheck disable=SC2086
    [ -z "$packages" ] || get $packages || return 1
    [ -x "$built/key-agentd" ] || echo 'desk: the first start proves the core and builds key-agentd: some minutes' >&2
    [ -n "${KEY_AGENT_LIB:-}" ] || "$root/rust/archive" > /dev/null || return 1
    building > /dev/null & ticker=$!
    (cd "$root/rust" && cargo build --release --offline --target-dir target -p key-agentd -p key-agent-panel) || status=1
    kill "$ticker" 2> /dev/null || true
    wait "$ticker" 2> /dev/null || true # no child is left to the program that is started next
    return $status
}
