# Completions of bash for maildropd.

_maildropd() {
    local word=${COMP_WORDS[COMP_CWORD]} before=${COMP_WORDS[COMP_CWORD - 1]} words=
    COMPREPLY=()
    case $before in
        --accounts | --log | --ctl-socket | --socket | --mbox | --config) mapfile -t COMPREPLY < <(compgen -f -- "$word") && return ;;
        --data | --mark) mapfile -t COMPREPLY < <(compgen -d -- "$word") && return ;;
        --sync) words='disk process' ;;
        --on-fault) words='stop go-on' ;;
        --method) words='pass apop' ;;
        --port | --pop-port | --ctl-port | --peer-port | --listen) return ;;
        *)
            case ${COMP_WORDS[1]-} in
                "$word") words='lone sim serve ctl begin check export mend help --help --version' ;;
                serve)
                    words='--accounts --port --pop-port --listen --ctl-port --ctl-socket --host --nodes --peer-port --node --mark --window
                        --tick-ms --messages --octets --ids --idle-seconds --no-majority-seconds --delivery-bytes --epoch-sessions
                        --epoch-bytes --keys --on-fault --data --sync --keep --log --config --check --help'
                    ;;
                ctl)
                    words='--port --socket --wait --help deliver put break kick crash status sessions stats locks users roll reopen stop'
                    [ "$before" != stop ] || words=now
                    ;;
                begin | check | export) words='--data --help' ;;
                mend) words='--data --accounts --cut --salvage --help' ;;
                lone) words='--user --secret --method --mbox --nonce --host --help' ;;
            esac
            ;;
    esac
    mapfile -t COMPREPLY < <(compgen -W "$words" -- "$word")
}
complete -o default -F _maildropd maildropd
