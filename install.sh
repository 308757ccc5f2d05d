#!/usr/bin/env bash
# Installs the program, its manual and completions, and the library for C, static and shared, with its header, its manual
# and its file for pkg-config: bash install.sh [--prefix /usr/local]. What is not built is built. DESTDIR goes before each
# path, as packagers expect.
# bash install.sh --uninstall [--prefix /usr/local] takes these files away.
# bash install.sh --deb [FOLDER] leaves a Debian package of them, with the Python package, there, or in this folder.
set -euo pipefail
here=$PWD
cd "$(dirname "$0")"
. tools/proving.sh

usage() {
    echo "install.sh: [--prefix FOLDER], --uninstall [--prefix FOLDER] or --deb [FOLDER]" >&2
    exit 2
}
verb=install prefix=/usr/local folder=$PWD
while [ $# -gt 0 ]; do
    case $1 in
        --prefix=*) prefix=${1#*=} ;;
        --prefix) [ $# -gt 1 ] || usage; prefix=$2; shift ;;
        --uninstall) verb=uninstall ;;
        --deb) verb=deb; if [ $# -gt 1 ]; then folder=$2; shift; fi ;;
        *) usage ;;
    esac
    shift
done
prefix=$(cd "$here" && realpath -ms "$prefix")
folder=$(cd "$here" && realpath -ms "$folder")
library=$prefix/lib
stage=$(mktemp -d)
trap 'rm -rf "$stage"' EXIT

is_built() { # is_built FILE: it is there, and no source is newer
    [ -f "$1" ] && [ -z "$(find crates crates.txt include -name out -prune -o -type f -newer "$1" -print -quit)" ]
}

build() {
    if is_built crates/nfstream/out/nfstream; then
        cp crates/nfstream/out/nfstream "$stage/"
    else
        bash build.sh "$stage"
    fi
    if is_built crates/nfstream_c/out/libnfstream_c.a; then
        cp crates/nfstream_c/out/libnfstream_c.a "$stage/libnfstream.a"
    else
        bash build.sh --library "$stage"
    fi
    make_shared "$stage/libnfstream.a" "$stage/libnfstream.so.1"
    write_pc "$stage/nfstream.pc" "$library" "$prefix/include"
}

# Each file: its mode, where it comes from, and where it goes.
files() {
    cat <<END
755 $stage/nfstream|$prefix/bin/nfstream
644 $stage/libnfstream.a|$library/libnfstream.a
644 $stage/libnfstream.so.1|$library/libnfstream.so.1
644 $stage/nfstream.pc|$library/pkgconfig/nfstream.pc
644 include/nfstream.h|$prefix/include/nfstream.h
644 docs/nfstream.1|$prefix/share/man/man1/nfstream.1
644 docs/nfstream.3|$prefix/share/man/man3/nfstream.3
644 completions/nfstream.bash|$prefix/share/bash-completion/completions/nfstream
644 completions/_nfstream|$prefix/share/zsh/${zsh:-site-functions}/_nfstream
END
}

put() { # put ROOT
    local mode line
    while read -r mode line; do
        install -D -m "$mode" "${line%%|*}" "$1${line#*|}"
    done < <(files)
    ln -sf libnfstream.so.1 "$1$library/libnfstream.so"
}

tell_loader() { # so that programs find the shared library
    if [ -z "${DESTDIR:-}" ] && [ "$(id -u)" = 0 ]; then
        PATH=$PATH:/usr/sbin:/sbin ldconfig || true
    fi
}

deb() {
    local root=$stage/root modules=/usr/lib/python3/dist-packages/nfstream version glibc
    prefix=/usr library=/usr/lib/x86_64-linux-gnu zsh=vendor-completions
    build
    put "$root"
    install -D -m 644 -t "$root$modules" python/nfstream/*.py python/nfstream/py.typed
    gzip -9n "$root"/usr/share/man/man?/nfstream.?
    version=$(sed -n 's/^#define NF_VERSION //p' include/nfstream.h)
    glibc=$(objdump -T "$stage/nfstream" "$stage/libnfstream.so.1" | grep -o 'GLIBC_[0-9.]*' | sort -uV | tail -n 1)
    mkdir "$root/DEBIAN"
    cat > "$root/DEBIAN/control" <<END
Package: nfstream
Version: $version
Architecture: amd64
Maintainer: $(git log -1 --format='%an <%ae>' 2> /dev/null || echo 'nfstream <root@localhost>')
Depends: libc6 (>= ${glibc#GLIBC_})
Suggests: python3 (>= 3.9)
Section: text
Priority: optional
Installed-Size: $(du -sk --exclude=DEBIAN "$root" | cut -f1)
Description: stream-safe, normalized text of UTF-8 in bounded memory
 The program nfstream reads UTF-8, applies the Stream-Safe Text Process of
 Unicode (UAX #15, section 13) and a normalization form, and writes UTF-8 or
 says the exact place of the first fault. The library does so for C, and the
 module nfstream over it for Python. All run on x86-64 with SSSE3, SSE4.1 and
 POPCNT.
END
    printf '%s\n' '#!/bin/sh' '# Takes away what Python made of the modules.' "rm -rf \"\$DPKG_ROOT$modules/__pycache__\"" > "$root/DEBIAN/prerm"
    chmod 755 "$root/DEBIAN/prerm"
    echo "activate-noawait ldconfig" > "$root/DEBIAN/triggers"
    (cd "$root" && find usr -type f -print0 | sort -z | xargs -0 md5sum > DEBIAN/md5sums)
    chmod -R u+rwX,go+rX,go-w "$root"
    dpkg-deb --root-owner-group -Zxz --build "$root" "$folder/nfstream_${version}_amd64.deb" > /dev/null
    echo "made $folder/nfstream_${version}_amd64.deb" >&2
}

case $verb in
    install)
        build
        put "${DESTDIR:-}"
        tell_loader
        echo "installed below ${DESTDIR:-}$prefix" >&2 ;;
    uninstall)
        files | sed 's/^[^|]*|//' | while IFS= read -r file; do rm -f "${DESTDIR:-}$file"; done
        rm -f "${DESTDIR:-}$library/libnfstream.so"
        tell_loader
        echo "taken away from ${DESTDIR:-}$prefix" >&2 ;;
    deb) deb ;;
esac
