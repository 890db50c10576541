# Shared by the scripts, which set `name` and source this: messages, and Debian packages that are missing.

fail() {
    echo "$name: $*" >&2
    exit 1
}

# Wrong use.
refuse() {
    echo "$name: $*; --help says what there is" >&2
    exit 2
}

as_root() {
    if [ "$(id -u)" -eq 0 ]; then
        "$@"
    else
        command -v sudo >/dev/null || fail "installing packages needs root or sudo"
        sudo "$@"
    fi
}

# Waits up to ten minutes for a lock that another process holds: apt-get's own option for that (DPkg::Lock::Timeout) does
# not hold for the lists of packages.
apt_get() { # WORDS..
    waited=0
    until said=$(as_root env LC_ALL=C DEBIAN_FRONTEND=noninteractive apt-get -qq "$@" 2>&1); do
        case $said in
        *'Could not get lock'*) [ "$waited" -lt 600 ] ;;
        *) false ;;
        esac || {
            echo "$said" >&2
            return 1
        }
        [ "$waited" -gt 0 ] || echo "$name: waiting for another process that holds the lock of the packages" >&2
        sleep 5
        waited=$((waited + 5))
    done
}

# Says what it does to the machine before it does it.
install_packages() { # WHY PACKAGE..
    why=$1
    shift
    command -v apt-get >/dev/null || fail "$why needs the Debian packages $*, and there is no apt-get to install them"
    echo "$name: $why needs the Debian packages $*; installing those that are missing" >&2
    case $* in
    *:amd64*)
        if ! dpkg --print-foreign-architectures | grep -qx amd64; then
            echo "$name: some of them are for x86-64; adding the architecture amd64 to those of dpkg" >&2
            as_root dpkg --add-architecture amd64 || fail "could not add the architecture amd64"
        fi
        ;;
    esac
    apt_get update || fail "could not update the list of packages"
    apt_get -y --no-install-recommends install "$@" || fail "could not install $*"
}

# What any program for x86-64 needs on Arm: Debian's cross compiler, its C library, and the emulator of run-x86.
cross_packages='libc6-dev:amd64 gcc-x86-64-linux-gnu qemu-user'
cross_c_is_there() {
    command -v x86_64-linux-gnu-gcc >/dev/null || return 1
    command -v qemu-x86_64 >/dev/null || return 1
    [ -e /usr/lib/x86_64-linux-gnu/crt1.o ]
}

# Sees to a compiler of C for x86-64, `compiler`, and to what runs its programs.
need_c() {
    case $(uname -m) in
    aarch64)
        cross_c_is_there || install_packages "building and running programs for x86-64 on Arm" $cross_packages
        cross_c_is_there || fail "the packages are installed, but the tools are not where they should be"
        compiler=x86_64-linux-gnu-gcc
        ;;
    x86_64)
        command -v gcc >/dev/null || install_packages "building programs in C" gcc libc6-dev
        compiler=gcc
        ;;
    *)
        fail "only x86-64 and 64-bit Arm are supported, not $(uname -m)"
        ;;
    esac
}
