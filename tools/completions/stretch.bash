# Completion of stretch, stretch-chart, stretch-ledger and the scripts stretch-NAME in bash.
_stretch() {
    local word=${COMP_WORDS[COMP_CWORD]} name=${COMP_WORDS[0]##*/} words=--help
    case $name:$COMP_CWORD in
    stretch:1) words='run assemble load disassemble sweep soak --help' ;;
    stretch-chart:1) words='svg text kanata --help' ;;
    stretch-ledger:1) words='1 2 3 4 5 6 7 8 sums rows --help' ;;
    stretch-ledger:2) words='sums rows' ;;
    stretch-explain:1) words='text csv json --help' ;;
    stretch-read:1) words='text csv json --help' ;;
    stretch:* | stretch-chart:* | stretch-ledger:* | stretch-read:* | stretch-indicators:*) return ;;
    *)
        mapfile -t COMPREPLY < <(compgen -W "$words" -- "$word"; compgen -f -- "$word")
        return
        ;;
    esac
    mapfile -t COMPREPLY < <(compgen -W "$words" -- "$word")
}
complete -o filenames -F _stretch stretch stretch-chart stretch-ledger stretch-explain stretch-why stretch-read stretch-deck \
    stretch-delays stretch-grade stretch-indicators stretch-page stretch-picture stretch-slides stretch-study
