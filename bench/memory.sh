#!/usr/bin/env bash
# Peak resident memory and processor time of nfstream on a short and on a long stream of hostile text, as a Markdown table:
#   bash bench/memory.sh [PROGRAM [MIB [MIB]]]
# PROGRAM is ./nfstream of the repository; the long stream of a letter and its marks has 1024 MiB, that of each other kind as
# many, unless the last number says otherwise.
# Needs GNU time (Debian's package time). Ends with status 1 where memory grows with the stream, or a program does not take all of it.
set -uo pipefail
bench=$(cd "$(dirname "$0")" && pwd)
mib=${2:-1024}
hostile=${3:-$mib}
most_growth=1024 # KiB: what one run and another of a program that holds nothing may differ by

. "$bench/setup.sh"
need /usr/bin/time "Debian's package time"
program=${1:-$bench/../nfstream}
need_program "$program"
program=$(realpath "$program")
make_scratch

# A block of about 1 MiB is given again and again.
repeat() { # repeat TEXT TIMES
    yes "$1" | head -n "$2" | tr -d '\n'
}
mark=$'\u0301'
printf q > "$scratch/letter"
repeat "$mark" $((1024 * 1024 / 2)) > "$scratch/marks"
repeat "q$(repeat "$mark" 30)" $((1024 * 1024 / 61)) > "$scratch/format"
: > "$scratch/nothing"

# Kinds of text that ask for much: the name of the block, what it is, and the text that is repeated.
kinds=(
    "mixed|marks of four classes, none in its place|"$'\u0345\u0301\u0316\u05b0'
    "joiners|U+034F alone|"$'\u034f'
    "alternating|a letter with 31 marks, and one with 12|q$(repeat "$mark" 31)e$(repeat $'\u0316' 12)"
    "long|U+FDFA, 18 characters in NFKC and NFKD|"$'\ufdfa'
    "greek|U+1FB7, three characters in NFD|"$'\u1fb7'
    "tibetan|U+0F73, a starter that is two marks|"$'\u0f73'
    "half-width|U+FF9E, a starter that is a mark in NFKD|"$'\uff9e'
    "jamo|letters of Hangul that make syllables|"$'\u1112\u1161\u11ab'
    "vowels|vowels of Hangul alone|"$'\u1161'
    "wide|characters of four bytes|"$'\U0001f600'
)
# And bytes that are no text, which --replace reads.
ill_formed=(
    "continuations|bytes 80 alone|\x80"
    "begun|F0 90 80, again and again|\xf0\x90\x80"
    "leads|bytes E0 alone|\xe0"
)
for kind in "${kinds[@]}" "${ill_formed[@]}"; do
    IFS='|' read -r name _ text <<< "$kind"
    printf -v text %b "$text"
    repeat "$text" $((1024 * 1024 / $(printf %s "$text" | wc -c))) > "$scratch/$name"
done

stream() { # stream FRONT BLOCK TIMES
    local blocks
    mapfile -t blocks < <(yes "$scratch/$2" | head -n "$3")
    cat "$scratch/$1" "${blocks[@]}"
}

# Leaves the peak in $peak and the processor time in $seconds; fails where the program does, or stops before the end.
measure() { # measure FRONT BLOCK TIMES WORD..
    local front=$1 block=$2 times=$3
    shift 3
    stream "$front" "$block" "$times" 2> /dev/null |
        /usr/bin/time -q -f '%M %U %S' -o "$scratch/figures" "$program" "$@" > /dev/null 2> "$scratch/errors"
    local ended=("${PIPESTATUS[@]}")
    read -r peak seconds < <(awk '{ printf "%d %.2f\n", $1, $2 + $3 }' "$scratch/figures")
    if [ "${ended[1]}" -ne 0 ]; then
        say "'$*' ended with status ${ended[1]}: $(head -n 1 "$scratch/errors")"
        return 1
    fi
    if [ "${ended[0]}" -ne 0 ]; then
        say "'$*' did not take the whole stream"
        return 1
    fi
}

failed=0
row() { # row MIB TEXT FRONT BLOCK WORD..
    local mib=$1 text=$2 front=$3 block=$4 short short_seconds
    shift 4
    if ! measure "$front" "$block" 1 "$@"; then
        failed=1
        return
    fi
    short=$peak short_seconds=$seconds
    if ! measure "$front" "$block" "$mib" "$@"; then
        failed=1
        return
    fi
    echo "| \`$*\` | $text | $short | $short_seconds | $mib | $peak | $seconds |"
    if [ $((peak - short)) -gt "$most_growth" ]; then
        say "'$*' holds $((peak - short)) KiB more on the long stream"
        failed=1
    fi
}

echo "| Command | Input | 1 MiB: peak, KiB | seconds | MiB | peak, KiB | seconds |"
echo "| --- | --- | ---: | ---: | ---: | ---: | ---: |"
for form in nfc nfd nfkc nfkd; do
    row "$mib" "q, then U+0301 without an end" letter marks convert --form "$form"
done
for command in check measure; do
    if "$program" "$command" --help > /dev/null 2>&1; then
        row "$mib" "q and thirty U+0301, again and again" nothing format "$command"
    else
        say "$program has no command '$command'"
    fi
done
for kind in "${kinds[@]}"; do
    IFS='|' read -r name title _ <<< "$kind"
    for form in nfc nfkd; do
        row "$hostile" "$title" nothing "$name" convert --form "$form"
    done
    for command in check measure; do
        # Where a run is too long, a check ends at once.
        if [ "$command" = measure ] || "$program" check < "$scratch/$name" > /dev/null; then
            row "$hostile" "$title" nothing "$name" "$command"
        fi
    done
done
for kind in "${ill_formed[@]}"; do
    IFS='|' read -r name title _ <<< "$kind"
    row "$hostile" "$title" nothing "$name" convert --form nfc --replace
done
exit "$failed"
