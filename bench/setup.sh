# Read by the scripts beside it, from their folder $bench.

say() { echo "${0##*/}: $*" >&2; }

need() { # need COMMAND [WHERE FROM]
    if ! command -v "$1" > /dev/null; then
        say "$1 is needed${2:+ ($2)}"
        exit 2
    fi
}

need_program() { # need_program PATH
    if [ ! -f "$1" ] || [ ! -x "$1" ]; then
        say "there is no program $1: build it by 'bash build.sh', or name one"
        exit 2
    fi
}

make_scratch() { # $scratch is a folder that goes at the end
    scratch=$(mktemp -d)
    trap 'rm -rf "$scratch"' EXIT
}
