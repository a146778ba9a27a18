# Completion of vaultd's words for bash, made by tools/pages.
_vaultd() {
    local word=$2 before=$3 command=${COMP_WORDS[1]} kind='compgen -W' options=''
    if [ "$COMP_CWORD" -eq 1 ]; then
        mapfile -t COMPREPLY < <(compgen -W 'serve make demo sync recover help -h --help -V --version' -- "$word")
        return
    fi
    case $before in
    --listen)
        mapfile -t COMPREPLY < <(compgen -W 'unix:' -- "$word")
        return
        ;;
    --sessions | --at-once | --idle | --seed | --clients | --requests)
        mapfile -t COMPREPLY < <(compgen -W '' -- "$word")
        return
        ;;
    --passfile)
        mapfile -t COMPREPLY < <(compgen -f -- "$word")
        return
        ;;
    esac
    case $command in
    serve)
        options='--listen --sessions --at-once --idle --read-only --raw-key --passfile -q --quiet -v --verbose -h --help'
        kind='compgen -d'
        ;;
    make)
        options='--passfile -h --help'
        kind='compgen -d'
        ;;
    demo)
        options='--seed --clients --requests -h --help'
        ;;
    sync)
        options='-h --help'
        ;;
    recover)
        options='--skip --discard -h --help'
        kind='compgen -d'
        ;;
    help)
        options='serve make demo sync recover'
        ;;
    esac
    if [ "$kind" = 'compgen -d' ] && [ "${word#-}" = "$word" ]; then
        mapfile -t COMPREPLY < <(compgen -d -- "$word")
    else
        mapfile -t COMPREPLY < <(compgen -W "$options" -- "$word")
    fi
}
complete -o filenames -F _vaultd vaultd
