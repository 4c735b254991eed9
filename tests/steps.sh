# shellcheck shell=bash disable=SC2034
# For the run scripts of tests that compile C: steps that are counted, what a fresh machine may lack, a folder for the time being.
cd "$(dirname "${BASH_SOURCE[0]}")/.." || exit 2
room=$(mktemp -d)
trap 'rm -rf "$room"' EXIT
passed=0 failed=0

step() { # NAME COMMAND..
    local name=$1
    shift
    if "$@"; then
        passed=$((passed + 1))
    else
        failed=$((failed + 1))
        echo "failed: $name"
        return 1
    fi
}

ends() {
    echo "$passed passed, $failed failed"
    [ "$failed" -eq 0 ]
}

# A command or a file, and Debian's package that has it.
need() { # NAME PACKAGE
    command -v "$1" >/dev/null || [ -e "$1" ] && return
    apt-get update -qq && apt-get install -y -qq "$2" >/dev/null
}

need cc gcc
[ "$(uname -m)" = x86_64 ] || need /usr/x86_64-linux-gnu/include/stdio.h libc6-dev-amd64-cross
strict=(-O2 -std=c11 -Wall -Wextra -Werror -pedantic -Iinclude)
