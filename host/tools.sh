# The tools that a script needs, installed from Debian's packages where they are missing. Read by the demo and the gate alone, which stand at the root of the
# repository; `give_up MESSAGE`, which ends them, is theirs.

install_packages() { # PACKAGE..
    echo "installing from Debian's packages: $*" >&2
    { apt-get install -y "$@" || { apt-get update && apt-get install -y "$@"; }; } >/dev/null 2>&1
}

need_tool() { # COMMAND PACKAGE..: installs the packages where there is no such command
    local command=$1
    shift
    command -v "$command" >/dev/null || install_packages "$@" || give_up "the command $command is missing, and apt-get could not install $*"
}

need_compiler() { # the C compiler that host/build.sh looks for
    if [ "$(uname -m)" = x86_64 ]; then
        need_tool gcc gcc libc6-dev
    else
        need_tool x86_64-linux-gnu-gcc gcc-x86-64-linux-gnu libc6-dev-amd64-cross
    fi
}
