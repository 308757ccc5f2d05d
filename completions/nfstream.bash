# Completion of nfstream for bash.
_nfstream() {
    local word=${COMP_WORDS[COMP_CWORD]} before=${COMP_WORDS[COMP_CWORD - 1]} words
    case $before in
        --form) words="nfc nfd nfkc nfkd" ;;
        nfstream | */nfstream) words="convert check measure test --help" ;;
        *)
            case ${COMP_WORDS[1]} in
                convert) words="--form --replace --assigned --line-buffered --help" ;;
                check) words="--form --assigned --help" ;;
                *) words="--help" ;;
            esac ;;
    esac
    mapfile -t COMPREPLY < <(compgen -W "$words" -- "$word")
}
complete -F _nfstream nfstream
