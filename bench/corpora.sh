#!/usr/bin/env bash
# Makes the real texts that are measured, from manuals and translations in Debian's packages:
#   bash bench/corpora.sh [FOLDER]      (FOLDER is nfstream-bench in the user's cache folder where none is named)
# Needs apt-get, dpkg-deb and python3. FOLDER/sources.tsv then tells which package gave how many distinct bytes.
set -euo pipefail
bench=$(cd "$(dirname "$0")" && pwd)
folder=${1:-${XDG_CACHE_HOME:-$HOME/.cache}/nfstream-bench}

. "$bench/setup.sh"
need python3
need apt-get "of Debian"
need dpkg-deb "of Debian"

packages_of() { # packages_of LANGUAGE
    case $1 in
        ascii) echo libreoffice-help-en-us ;;
        french) echo libreoffice-help-fr ;;
        vietnamese) echo libreoffice-help-vi libreoffice-l10n-vi ;;
        korean) echo libreoffice-help-ko ;;
        japanese) echo libreoffice-help-ja ;;
        chinese) echo libreoffice-help-zh-cn ;;
        russian) echo libreoffice-help-ru ;;
        greek) echo libreoffice-help-el ;;
        hindi) echo libreoffice-help-hi libreoffice-l10n-hi firefox-esr-l10n-hi-in ;;
        arabic) echo libreoffice-l10n-ar firefox-esr-l10n-ar thunderbird-l10n-ar ;;
        hebrew) echo libreoffice-l10n-he firefox-esr-l10n-he thunderbird-l10n-he ;;
    esac
}

package_file() { # package_file PACKAGE: the file that was downloaded, if it was
    find "$folder/packages" -name "$1_*.deb" | sort | tail -n 1
}

unpack() { # unpack LANGUAGE: its packages, each in a folder of $folder/unpacked/LANGUAGE that has its name and version
    local package file target
    for package in $(packages_of "$1"); do
        if [ -z "$(package_file "$package")" ]; then
            (cd "$folder/packages" && apt-get -q download "$package") >&2
        fi
        file=$(package_file "$package")
        target=$folder/unpacked/$1/$(dpkg-deb --show --showformat '${Package} ${Version}' "$file")
        mkdir -p "$target"
        dpkg-deb --extract "$file" "$target"
    done
}

mkdir -p "$folder/packages"
folder=$(cd "$folder" && pwd)
rm -rf "$folder/unpacked"
for language in ascii french vietnamese korean japanese chinese russian greek hindi arabic hebrew; do
    unpack "$language"
done
say "taking the texts out of the packages; this takes some minutes"
python3 -B "$bench/extract.py" "$folder"
rm -rf "$folder/unpacked"
cat "$folder/sources.tsv"
