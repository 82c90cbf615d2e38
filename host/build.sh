# How the C programs of the host are built and run here. Read by scripts that stand at the root of the repository; `give_up MESSAGE`, which ends them, is theirs.
# It sets `cc` (the compiler), `run` (what stands before a program to run it) and `build`. `crate` names the crate of the archive, which is made anew where a
# proved source has changed. It installs nothing: host/tools.sh does.
crate=${crate:-collector}
archive=target/staticlib/lib$crate.a

command -v rt >/dev/null || give_up 'the command rt of the Rattle kit is not on the path'

# The archive is x86-64. Elsewhere its programs are built by a cross compiler and run under the emulator of a kit that has one.
if [ "$(uname -m)" = x86_64 ]; then
    cc=gcc
    packages='gcc libc6-dev'
    run=()
else
    cc=x86_64-linux-gnu-gcc
    packages='gcc-x86-64-linux-gnu libc6-dev-amd64-cross'
    kit=$(dirname "$(rt doc)")
    run=("$kit/on/$(uname -m)/toolchain/bin/qemu-x86_64" -L /usr/x86_64-linux-gnu)
    [ -x "${run[0]}" ] || give_up "the kit has no emulator ${run[0]}"
fi
command -v "$cc" >/dev/null || give_up "the compiler $cc is missing; Debian's packages are $packages"

need_archive() { # CRATE: its archive, made anew where there is none or a proved source is younger
    local made=target/staticlib/lib$1.a
    if [ ! -f "$made" ] || [ -n "$(find crates.txt crates/*/* \( -name must-fail -o -name out \) -prune -o -newer "$made" -print -quit)" ]; then
        bash host/archive "$1" || give_up "there is no $made"
    fi
}
need_archive "$crate"

build() { # NAME PROGRAM SOURCE..: PROGRAM from host/NAME/NAME.c, other sources and the archive
    "$cc" -O2 -Wall -Wextra -Werror -std=c11 -Ihost/include -Ihost/replay "host/$1/$1.c" "${@:3}" "$archive" -o "$2"
}
