# Completion of dme in bash. Source it:  . docs/dme.bash
_dme()
{
    local word=${COMP_WORDS[COMP_CWORD]} before=${COMP_WORDS[COMP_CWORD - 1]} options
    COMPREPLY=()
    if (( COMP_CWORD == 1 )); then
        mapfile -t COMPREPLY < <(compgen -W "check simulate audit loop serve run explain export report summary review lower ledger judge watch help --help --version" -- "$word")
        return
    fi
    case $before in
        --setup | --schedule | --features | --contacts | --record | --limits | --log | --stop | --up | --down | --told | --record-bytes | --program)
            mapfile -t COMPREPLY < <(compgen -f -- "$word")
            return ;;
        --as)
            options="csv json svg features contacts"
            [[ ${COMP_WORDS[1]} == review ]] && options=json
            [[ ${COMP_WORDS[1]} == summary ]] && options="text csv html"
            mapfile -t COMPREPLY < <(compgen -W "$options" -- "$word")
            return ;;
        --host | --listen)
            mapfile -t COMPREPLY < <(compgen -A hostname -- "$word")
            return ;;
        --port | --window | --connections | --connection | --part | --operator | --timeout | --wait | --value)
            return ;;
    esac
    case ${COMP_WORDS[1]} in
        check) options="--setup --explain" ;;
        simulate) options="--setup --schedule --window --trace --explain" ;;
        audit) options="--setup --features --contacts --record --seal-key --explain" ;;
        loop) options="--setup --window --progress --trace --explain" ;;
        serve) options="--setup --listen --port --connections --endless --contacts --progress --trace --log --timeout --stop --explain" ;;
        run) options="--machine --setup --host --port --window --features --record --records --part --operator --seal-key --contacts --progress --trace --log --timeout --wait --stop --confirm --pause --explain" ;;
        export) options="--as --setup --features --record --limits --separator --decimal --with-part --explain" ;;
        report) options="--record --setup --limits --seal-key --explain" ;;
        summary) options="--as --setup --limits --seal-key --program" ;;
        review) options="--as --setup" ;;
        lower) options="--setup --no-clearing --compensated --skip-manual --stored-frames --even-touches --value --explain" ;;
        ledger) options="--up --down --connection" ;;
        judge) options="--up --down" ;;
        watch) options="--listen --host --port --told --record-bytes --connections --endless --trace --log --timeout" ;;
        explain)
            options="P1 P2 P3 P4 P5 P6 P7 P8 P9 P10 P11 P12 P13 P14 P15 P16 N1 N2 N3 S1 S2 S3 H1 M1 M2 M3 D1 D2 K1 J1 J2 J3 J4 J5 C4"
            options+=" 9001 9002 9003 9004 9005 9006 9007 9008 9009 9010 9011 9012 9013 9014 9015"
            [[ $word == [a-z]* ]] && options=${options,,}
            [[ $word == -* ]] && options=--help
            mapfile -t COMPREPLY < <(compgen -W "$options" -- "$word")
            return ;;
        help) options="check simulate audit loop serve run explain export report summary review lower ledger judge watch" ;;
        *) return ;;
    esac
    if [[ ${COMP_WORDS[1]} == help || $word == -* ]]; then
        mapfile -t COMPREPLY < <(compgen -W "$options --help" -- "$word")
    elif [[ ${COMP_WORDS[1]} != serve && ${COMP_WORDS[1]} != ledger && ${COMP_WORDS[1]} != judge && ${COMP_WORDS[1]} != watch ]]; then
        mapfile -t COMPREPLY < <(compgen -f -- "$word")
    fi
}
complete -o filenames -F _dme dme
