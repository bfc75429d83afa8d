# To be sourced, in the repository's root. The proved programs and the library are x86-64 code. On such a machine they run as they are;
# elsewhere under Debian's qemu-user, with Debian's packages of the amd64 architecture. What is missing is installed.
#   x86 PROGRAM ARGS..    runs an x86-64 program
#   x86_path PROGRAM      prints the path of something that runs PROGRAM: itself, or a script in target/x86
#   x86_compilers         sets x86_cc and x86_cxx, compilers for x86-64
#   x86_languages         sets x86_cargo and x86_python, which build, test and run for x86-64

x86_native() {
    [ "$(uname -m)" = x86_64 ]
}

# Installs Debian packages.
x86_install() {
    echo "== installing $*" >&2
    apt-get update -qq >/dev/null
    DEBIAN_FRONTEND=noninteractive apt-get install -y -qq "$@" >/dev/null
}

# Installs PACKAGES where COMMAND is missing: x86_need COMMAND PACKAGES..
x86_need() {
    local command=$1
    shift
    command -v "$command" >/dev/null || x86_install "$@"
}

# ---- running

x86_runner() {
    if x86_native; then return; fi
    x86_need qemu-x86_64 qemu-user
    [ -e /lib64/ld-linux-x86-64.so.2 ] || { dpkg --add-architecture amd64 && x86_install libc6:amd64; }
}

x86() {
    x86_runner
    if x86_native; then
        "$@"
    else
        qemu-x86_64 "$@"
    fi
}

x86_path() {
    if x86_native; then
        echo "$1"
        return
    fi
    x86_runner
    mkdir -p target/x86
    local script=$PWD/target/x86/${1##*/}
    printf '#!/bin/sh\nexec qemu-x86_64 %s "$@"\n' "$1" >"$script"
    chmod +x "$script"
    echo "$script"
}

# ---- compiling

x86_compilers() {
    if x86_native; then
        x86_cc=cc
        x86_cxx=c++
        x86_need cc gcc libc6-dev
        x86_need c++ g++
    else
        x86_cc=x86_64-linux-gnu-gcc
        x86_cxx=x86_64-linux-gnu-g++
        x86_need "$x86_cc" gcc-x86-64-linux-gnu
        x86_need "$x86_cxx" g++-x86-64-linux-gnu
    fi
}

x86_languages() {
    if x86_native; then
        x86_cargo=cargo
        x86_python=python3
        x86_need cargo cargo
        x86_need python3 python3
    else
        x86_runner
        x86_compilers
        x86_cross_cargo
        x86_cross_python
    fi
}

# Debian's cargo, with its standard library for amd64 beside the machine's own.
x86_cross_cargo() {
    x86_cargo=/usr/bin/cargo
    x86_need "$x86_cargo" cargo
    [ -d /usr/lib/rustlib/x86_64-unknown-linux-gnu ] || x86_install libstd-rust-dev:amd64
    export RUSTC=/usr/bin/rustc RUSTDOC=/usr/bin/rustdoc CARGO_BUILD_TARGET=x86_64-unknown-linux-gnu
    export CARGO_TARGET_X86_64_UNKNOWN_LINUX_GNU_LINKER=$x86_cc CARGO_TARGET_X86_64_UNKNOWN_LINUX_GNU_RUNNER=qemu-x86_64
}

# Debian's Python for amd64, which cannot be installed beside the machine's own: its files go to target/x86/python.
x86_cross_python() {
    local version files=$PWD/target/x86/python
    x86_python=$PWD/target/x86/python3
    [ ! -x "$x86_python" ] || return 0
    x86_install libffi8:amd64 libexpat1:amd64 zlib1g:amd64
    version=$(apt-cache depends python3:amd64 | sed -n 's/.*Depends: \(python3\.[0-9]*\).*/\1/p' | head -n 1)
    mkdir -p "$files"
    (cd "$files" && apt-get download -qq "$version-minimal:amd64" "lib$version-minimal:amd64" "lib$version-stdlib:amd64" 2>/dev/null)
    local package
    for package in "$files"/*.deb; do
        dpkg -x "$package" "$files"
    done
    printf '#!/bin/sh\nPYTHONHOME=%s/usr exec qemu-x86_64 %s/usr/bin/%s "$@"\n' "$files" "$files" "$version" >"$x86_python"
    chmod +x "$x86_python"
}
