# Completion by bash of all programs: options, subcommands, and files where one is asked for.
# shellcheck shell=bash

_tiuvrokk_words() {
    case $1 in
    amserve)
        case ${COMP_WORDS[1]-} in
        alone) echo '--auto --help' ;;
        listen) echo '--port --socket --sessions --workers --trace --stop --hold --stay --grace --idle --idle-transaction --idle-seat --runs --log --help' ;;
        *) echo 'alone listen help --help --version' ;;
        esac
        ;;
    amaudit) echo '--records --open --help --version' ;;
    amload) echo '--run --update --last --csv --key --value --skip-empty --skip --escape --key-bytes --value-bytes --port --socket --wait --hold --tries --help --version' ;;
    amdump) echo '--escape --port --socket --wait --hold --tries --help --version' ;;
    amcli) echo '--port --socket --wait --store --escape --raw --json --csv --strict --lenient --command --history --help --version' ;;
    amdraw) echo '--text --help --version' ;;
    amreplica) echo '--port --log --reads --limit --snapshot --trace --stats --cacert --cert --key --user --password-file --help --version' ;;
    esac
}

_tiuvrokk() {
    local program=${1##*/} word=$2 before=$3
    COMPREPLY=()
    case $before in
    --port | --sessions | --workers | --hold | --tries | --grace | --idle | --idle-transaction | --idle-seat | --runs | --auto | --run | --key-bytes | --value-bytes | --wait | --log | --limit | --snapshot | --user) return ;;
    --reads) mapfile -t COMPREPLY < <(compgen -W 'log local' -- "$word") ;;
    --trace | --socket | --store | --history | --cacert | --cert | --key) mapfile -t COMPREPLY < <(compgen -f -- "$word") ;;
    *)
        if [[ $word == -* || ($program == amserve && $COMP_CWORD == 1) ]]; then
            mapfile -t COMPREPLY < <(compgen -W "$(_tiuvrokk_words "$program")" -- "$word")
        elif [[ $program == amaudit || $program == amload || $program == amdump || $program == amdraw ]]; then
            mapfile -t COMPREPLY < <(compgen -f -- "$word")
        fi
        ;;
    esac
}

complete -F _tiuvrokk amserve amaudit amload amdump amcli amdraw amreplica
