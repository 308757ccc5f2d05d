# Read by the scripts at the top, which stand in the repository's folder: what proves and builds a crate and shows how far it is.

# Sets $rt to the kit's command.
find_rt() {
    rt=$(command -v rt || true)
    [ -n "$rt" ] || rt=/opt/rattle/bin/rt
    if [ ! -x "$rt" ]; then
        echo "${0##*/}: the command rt of the Rattle kit is missing: put its folder bin/ on PATH, or the kit at /opt/rattle" >&2
        exit 2
    fi
}

# Prints a crate and those of this repository below it, each after those that it uses: the order in which rt takes them.
with_those_below() { # with_those_below CRATE
    awk -v top="$1" '
        function visit(name,    words, count, i) {
            if (!(name in uses) || seen[name]++) return
            count = split(uses[name], words, " ")
            for (i = 1; i <= count; i++) visit(words[i])
            print name
        }
        /^[a-z]/ { name = $1; sub(/:.*/, "", name); uses[name] = $0; sub(/[^:]*:/, "", uses[name]) }
        END { visit(top) }' crates.txt
}

took() { # took SECONDS
    if [ "$1" -lt 120 ]; then echo "$1 s"; else echo "$((($1 + 30) / 60)) min"; fi
}

# Reads what rt says into LOG. On a terminal one line on standard error is kept up to date; elsewhere each crate has a line.
show_progress() { # show_progress CRATE LOG
    local crates line part='' crate='' where='' done='' began=$SECONDS terminal=
    mapfile -t crates < <(with_those_below "$1")
    [ ! -t 2 ] || terminal=1
    while :; do
        if IFS= read -r -t 1 line; then
            line=$part$line part=''
            printf '%s\n' "$line" >> "$2"
        elif [ $? -gt 128 ]; then # a second has passed
            part+=$line line=''
        else
            break
        fi
        case $line in
            "rt: waiting for another rt"*) echo "${line#rt: }" >&2 ;;
            "rt: chose --jobs "*" for "*)
                if [ "$crate" != "${line##* }" ]; then
                    crate=${line##* } done=''
                    where=$(printf '%s\n' "${crates[@]}" | grep -nx "$crate" | cut -d: -f1 || true)
                    where="crate $where of ${#crates[@]}"
                    [ -n "$terminal" ] || echo "proving $crate, $where, after $(took $((SECONDS - began)))" >&2
                fi ;;
            "checked "*) [[ $line =~ ([0-9]+\ of\ [0-9]+)$ ]] && done=": ${BASH_REMATCH[1]} functions" ;;
            "so far: "*) [[ $line =~ ^so\ far:\ ([0-9]+\ of\ [0-9]+)\ functions ]] && done=": ${BASH_REMATCH[1]} functions" ;;
        esac
        if [ -n "$terminal" ]; then
            line="${crate:+proving $crate$done, $where}"
            printf '\r\033[K%s, %s' "${line:-looking at what is built}" "$(took $((SECONDS - began)))" >&2
        fi
    done
    [ -z "$terminal" ] || printf '\r\033[K' >&2
}

# Prints what rt said of the crate that it was at, without the lines that tell only how far it was.
last_crate() { # last_crate LOG
    awk '/^rt: chose --jobs / { said = "" }
        !/: proved$/ && !/modules loaded=/ && !/^checked / && !/^so far: / && !/^logic / { said = said $0 "\n" }
        END { printf "%s", said }' "$1"
}

# Proves and builds a crate by rt; where that fails, shows what was said of the crate that failed, and ends the script.
prove() { # prove CRATE VERB [WORD..]
    local crate=$1 log failed began=$SECONDS
    shift
    log=$(mktemp)
    if ! (cd "crates/$crate" && exec "$rt" "$@") 2>&1 < /dev/null | show_progress "$crate" "$log"; then
        last_crate "$log" >&2
        failed=$(sed -n 's/^rt: chose --jobs .* for //p' "$log" | tail -n 1)
        echo "${0##*/}: $crate was not built${failed:+: the fault is in $failed}, after $(took $((SECONDS - began))); all that was said is in $log" >&2
        exit 1
    fi
    rm -f "$log"
}

# Writes the file for pkg-config of a library and a header that lie in these folders.
write_pc() { # write_pc FILE LIBDIR INCLUDEDIR
    printf '%s\n' "libdir=$2" "includedir=$3" "" "Name: nfstream" \
        "Description: stream-safe, normalized text of UTF-8 that comes in pieces" \
        "Version: $(sed -n 's/^#define NF_VERSION //p' include/nfstream.h)" \
        'Libs: -L"${libdir}" -lnfstream' 'Cflags: -I"${includedir}"' > "$1"
}

# Makes a shared library of the archive, which shows the calls of the header alone.
make_shared() { # make_shared ARCHIVE FILE
    local map
    map=$(mktemp)
    echo '{ global: nf_*; local: *; };' > "$map"
    "${CC:-cc}" -shared -o "$2" -Wl,-soname,libnfstream.so.1 "-Wl,--version-script=$map" -Wl,-z,relro,-z,now \
        -Wl,--whole-archive "$1" -Wl,--no-whole-archive
    rm -f "$map"
}
