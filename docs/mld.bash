# Written by docs/pages from docs/commands.tsv. Use it by: source docs/mld.bash
_mld() {
    [ "$COMP_CWORD" != 1 ] || mapfile -t COMPREPLY < <(compgen -W "decode check run --help --version" -- "${COMP_WORDS[1]}")
}
complete -F _mld mld ./mld
