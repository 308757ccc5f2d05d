#!/usr/bin/env bash
# Installs into a folder with a space, as a new user would: runs the program, looks at the shared library, the manuals and
# the completions, builds and runs what docs/CALLERS.md shows in C, Python and Rust, and takes all away again. Then the same of a
# Debian package, which is installed below a folder and removed: bash tools/try_install.sh
# What is not there is left out, and that is said.
set -euo pipefail
cd "$(dirname "$0")/.."
top=$PWD
work=$(mktemp -d)
trap 'rm -rf "$work"' EXIT
prefix="$work/in stalled"
python=$work/venv/bin/python
printf 'Vie\314\202\314\243t Nam\n' > "$work/names"

left_out() { echo "left out: $1"; }

wrong() { echo "$1" >&2; exit 1; }

gives() { # gives WHAT COMMAND..: it brings the names into NFC
    local what=$1 got
    shift
    got=$("$@" < "$work/names") || wrong "$what ends with status $?"
    [ "$got" = 'Việt Nam' ] || wrong "$what gives '$got'"
    echo "$what: as it should be"
}

shown() { # shown HEAD: the first block of docs/CALLERS.md after a line that begins so
    awk -v head="$1" '
        index($0, head) == 1 { on = 1 }
        on && /^    / { print substr($0, 5); seen = 1; next }
        on && seen && /./ { exit }
        on && seen { print "" }' docs/CALLERS.md
}

example() { # example NUMBER: an example of the header's manual
    awk -v wanted="$1" '/^\.Ed/ { on = 0 } on { print } /^\.Bd/ { on = ++number == wanted }' docs/nfstream.3
}

try_files() { # try_files ROOT BIN LIBRARY HEADERS
    gives "the program" "$1$2/nfstream" convert --form nfc
    shown '**C**' > "$work/filter.c"
    cc -Wall -Wextra -Werror "$work/filter.c" -I "$1$4" -L "$1$3" -l nfstream -o "$work/dynamic"
    gives "C, over the shared library" env "LD_LIBRARY_PATH=$1$3" "$work/dynamic"
    cc "$work/filter.c" -I "$1$4" "$1$3/libnfstream.a" -o "$work/static"
    gives "C, over the archive" "$work/static"
    printf 'ab\303(' | "$work/static" > "$work/out" 2> "$work/told" && wrong "a fault was passed over"
    [ "$(cat "$work/out" "$work/told")" = "aill-formed UTF-8 at 3" ]
    nm -D --defined-only "$1$3/libnfstream.so.1" | awk '{ print $3 }' | sort > "$work/exports"
    grep -o '^[a-z].* nf_[a-z_]*(' "$1$4/nfstream.h" | grep -v '^static' | grep -o 'nf_[a-z_]*' | sort | cmp - "$work/exports"
    readelf -d "$1$3/libnfstream.so.1" | grep -q 'SONAME.*\[libnfstream.so.1\]'
}

try_manuals() { # try_manuals FOLDER
    local page
    command -v man > /dev/null || { left_out "the manuals: no man"; return; }
    for page in "$1"/man1/nfstream.1* "$1"/man3/nfstream.3*; do
        LC_ALL=C.UTF-8 MANWIDTH=80 man --warnings -l "$page" > "$work/page" 2> "$work/warnings"
        [ ! -s "$work/warnings" ] || wrong "$(cat "$work/warnings")"
        grep -q '^CAVEATS' "$work/page" && grep -q '^SEE ALSO' "$work/page"
    done
    echo "the manuals: as they should be"
}

offers() { # offers WORD..: what bash's completion offers for these words, of which the last is begun
    bash -c '. "$1"; shift; COMP_WORDS=("$@") COMP_CWORD=$(($# - 1)); _nfstream; printf "%s\n" "${COMPREPLY[@]}"' sh "$completion" "$@"
}

part() { awk -v head="$1:" '$0 == head { on = 1; next } !NF { on = 0 } on'; } # part NAME: of what --help prints

try_completions() { # try_completions BASH ZSH
    local completion=$1 command
    "$prefix/bin/nfstream" --help | part Commands | awk '{ print $1 }' | grep -vx help | sort > "$work/wanted"
    offers nfstream '' | grep -v '^-' | sort | cmp - "$work/wanted"
    for command in $(cat "$work/wanted"); do
        "$prefix/bin/nfstream" "$command" --help | part Options | sed -n 's/^ *\(-[a-z], \)\{0,1\}\(--[a-z-]*\).*/\2/p' | sort > "$work/options"
        offers nfstream "$command" -- | sort | cmp - "$work/options"
    done
    offers nfstream convert --form '' | paste -sd ' ' | grep -qx 'nfc nfd nfkc nfkd'
    if command -v zsh > /dev/null; then zsh -n "$2"; else left_out "completion for zsh: no zsh"; fi
    echo "the completions: as they should be"
}

bash install.sh --prefix "$prefix"
try_files "" "$prefix/bin" "$prefix/lib" "$prefix/include"
try_manuals "$prefix/share/man"
try_completions "$prefix/share/bash-completion/completions/nfstream" "$prefix/share/zsh/site-functions/_nfstream"
export PKG_CONFIG_PATH="$prefix/lib/pkgconfig"
(cd "$work" && eval 'eval cc filter.c -o told $(pkg-config --cflags --libs nfstream)')
gives "C, by what pkg-config says" env "LD_LIBRARY_PATH=$prefix/lib" "$work/told"
{ printf '%s\n' '#include <nfstream.h>' '#include <stdio.h>' 'int main(void) {'; example 1; echo '}'; } > "$work/filter.c"
(cd "$work" && eval "$(cd "$top" && example 2) -o manual")
gives "the manual's C" env "LD_LIBRARY_PATH=$prefix/lib" "$work/manual"

if python3 -c 'import ensurepip' 2> /dev/null; then
    export NFSTREAM_LIBRARY="$prefix/lib/libnfstream.so.1" LC_ALL=C.UTF-8
    python3 -m venv "$work/venv"
    "$python" -m pip --disable-pip-version-check -q install --no-index ./python
    shown '**Python**' > "$work/shown"
    (cd "$work" && "$python" -m doctest shown "$top/python/README.md")
    echo "docs/CALLERS.md, Python: as it should be"
else
    left_out "docs/CALLERS.md, Python: python3 is not there, or makes no venv with pip"
fi

if command -v cargo > /dev/null; then
    mkdir -p "$work/app/src"
    shown '**Rust**' > "$work/app/src/main.rs"
    printf '%s\n' '[package]' 'name = "app"' 'version = "1.0.0"' 'edition = "2021"' '[dependencies]' "nfstream = { path = \"$top/rust\" }" > "$work/app/Cargo.toml"
    (cd "$work/app" && CARGO_TARGET_DIR="$work/target" cargo build --offline --quiet)
    gives "docs/CALLERS.md, Rust" "$work/target/debug/app"
else
    left_out "docs/CALLERS.md, Rust: no cargo"
fi

bash install.sh --prefix "$prefix" --uninstall
[ -z "$(find "$prefix" -not -type d)" ] || wrong "files are left"

DESTDIR="$work/root" bash install.sh --prefix /opt/nf
grep -qx 'libdir=/opt/nf/lib' "$work/root/opt/nf/lib/pkgconfig/nfstream.pc"
DESTDIR="$work/root" bash install.sh --prefix /opt/nf --uninstall
[ -z "$(find "$work/root" -not -type d)" ] || wrong "files are left"

command -v dpkg > /dev/null || { left_out "the Debian package: no dpkg"; exit 0; }
bash install.sh --deb "$work"
dpkg-deb -f "$work"/nfstream_*.deb Depends | grep -q '^libc6 (>= 2\.'
mkdir -p "$work/other/var/lib/dpkg"
touch "$work/other/var/lib/dpkg/status"
at_other() { PATH=$PATH:/usr/sbin:/sbin dpkg --root="$work/other" --force-not-root --force-script-chrootless --force-depends "$@" > "$work/said" 2>&1 || wrong "$(cat "$work/said")"; }
at_other -i "$work"/nfstream_*.deb
try_files "$work/other" /usr/bin /usr/lib/x86_64-linux-gnu /usr/include
try_manuals "$work/other/usr/share/man"
export NFSTREAM_LIBRARY="$work/other/usr/lib/x86_64-linux-gnu/libnfstream.so.1" LC_ALL=C.UTF-8
shown '**Python**' > "$work/shown"
(cd "$work" && PYTHONPATH=$work/other/usr/lib/python3/dist-packages python3 -m doctest shown)
at_other -P nfstream
[ -z "$(find "$work/other" -path '*/var' -prune -o -not -type d -print)" ] || wrong "files are left"
echo "the Debian package: installed and gone again"
