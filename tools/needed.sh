# shellcheck shell=bash
# What the gate, the launcher and the peers' comparison need of the machine. To be sourced.

has() { command -v "$1" >/dev/null; }

# Where cargo is put for one user; not every shell has been told.
has cargo || PATH=$PATH:${HOME-}/.cargo/bin

# Installs Debian's packages, where that may be done.
install_packages() { # PACKAGE..
    [ "$(id -u)" -eq 0 ] && has apt-get || return 1
    export DEBIAN_FRONTEND=noninteractive
    apt-get update -q && apt-get install -q -y --no-install-recommends "$@"
}
