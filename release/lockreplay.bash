# What lockreplay takes, for bash: source this file, or put it as lockreplay into /usr/share/bash-completion/completions.
# scripts/completions made this file of what the program's help says.

# Completes the word with those of the list.
_lockreplay_words() {
    mapfile -t COMPREPLY < <(compgen -W "$1" -- "$word")
}

# Completes the word behind a command: so many operands may stand there (of which so many are files), these options have values, and these
# may be given again; all options come behind them.
_lockreplay_rest() {
    local most=$1 files=$2 valued=" $3 " again=" $4 " left=" $5 " count=0 at
    for ((at = 2; at < COMP_CWORD; at++)); do
        case ${COMP_WORDS[at]} in
        --)
            compopt -o default
            return
            ;;
        -?*)
            [[ $again == *" ${COMP_WORDS[at]} "* ]] || left=${left/" ${COMP_WORDS[at]} "/ }
            if [[ $valued == *" ${COMP_WORDS[at]} "* ]]; then
                [[ ${COMP_WORDS[at + 1]} != = ]] || ((at++))
                ((at++))
            fi
            ;;
        *) ((count++)) ;;
        esac
    done
    if [[ $word == -* ]] || ((count >= most)); then
        _lockreplay_words "$left"
    elif ((count < files)); then
        compopt -o default
    fi
}

# Completes the word at COMP_CWORD of the words COMP_WORDS, in which = stands by itself.
_lockreplay() {
    local word=${COMP_WORDS[COMP_CWORD]} before=${COMP_WORDS[COMP_CWORD - 1]}
    COMPREPLY=()
    [[ $before != = ]] || before=${COMP_WORDS[COMP_CWORD - 2]}
    [[ $word != = ]] || word=
    if ((COMP_CWORD == 1)); then
        if [[ $word == -* ]]; then _lockreplay_words '-h --help -V --version'; else _lockreplay_words 'run threads audit history state judge seat members merge play explain open check picture stats from-strace explore schedule help'; fi
        return
    fi
    case ${COMP_WORDS[1]} in
    run)
        case $before in
        --after) compopt -o default ;;
        --journal) compopt -o default ;;
        *) _lockreplay_rest 1 1 '--after --journal' '' '--after --journal --expect --quiet --calm -h --help'
        esac
        ;;
    threads)
        case $before in
        --seed) : ;;
        --journal) compopt -o default ;;
        *) _lockreplay_rest 1 1 '--seed --journal' '' '--seed --stop-when-stuck --no-join --journal -h --help'
        esac
        ;;
    audit)
        _lockreplay_rest 1 1 '' '' '-h --help'
        ;;
    history)
        _lockreplay_rest 1 1 '' '' '--as-clients -h --help'
        ;;
    state)
        case $before in
        --at) : ;;
        *) _lockreplay_rest 1 1 '--at' '' '--at -h --help'
        esac
        ;;
    judge)
        case $before in
        --steps) : ;;
        --explains) compopt -o default ;;
        --allow) _lockreplay_words 'wait-drops close-own-descriptor no-query stale-read-denial lost-at' ;;
        *) _lockreplay_rest 9999 9999 '--steps --explains --allow' '--allow' '--steps --explains --allow --order --go-on --stats --json -h --help'
        esac
        ;;
    seat)
        case $before in
        --nodes) : ;;
        --files) : ;;
        --policy) _lockreplay_words 'wide exact' ;;
        --past) : ;;
        --log) compopt -o default ;;
        *) _lockreplay_rest 2 0 '--nodes --files --policy --past --log' '' '--nodes --files --policy --again --past --log --clock -h --help'
        esac
        ;;
    members)
        case $before in
        --nodes) : ;;
        --files) : ;;
        --state) compopt -o default ;;
        *) _lockreplay_rest 0 0 '--nodes --files --state' '' '--nodes --files --state --clock -h --help'
        esac
        ;;
    merge)
        case $before in
        --journal) compopt -o default ;;
        --members) compopt -o default ;;
        --skew) : ;;
        *) _lockreplay_rest 9999 9999 '--journal --members --skew' '' '--journal --members --check --skew -h --help'
        esac
        ;;
    play)
        _lockreplay_rest 0 0 '' '' '-h --help'
        ;;
    explain)
        case $before in
        --names) : ;;
        *) _lockreplay_rest 2 1 '--names' '' '--json --names -h --help'
        esac
        ;;
    open)
        case $before in
        --names) : ;;
        *) _lockreplay_rest 1 1 '--names' '' '--ever --json --names -h --help'
        esac
        ;;
    check)
        case $before in
        --journal) compopt -o default ;;
        *) _lockreplay_rest 9999 9999 '--journal' '' '--journal --json -h --help'
        esac
        ;;
    picture)
        case $before in
        --around) : ;;
        --from) : ;;
        --to) : ;;
        --format) _lockreplay_words 'svg mermaid' ;;
        --names) : ;;
        *) _lockreplay_rest 1 1 '--around --from --to --format --names' '' '--around --from --to --format --names -h --help'
        esac
        ;;
    stats)
        case $before in
        --names) : ;;
        *) _lockreplay_rest 1 1 '--names' '' '--json --names -h --help'
        esac
        ;;
    from-strace)
        case $before in
        --nodes) : ;;
        --place) : ;;
        --names) : ;;
        *) _lockreplay_rest 9999 9999 '--nodes --place --names' '' '--nodes --place --history --names -h --help'
        esac
        ;;
    explore)
        case $before in
        --seeds) : ;;
        --first) : ;;
        --losses) : ;;
        --repeats) : ;;
        --states) : ;;
        *) _lockreplay_rest 1 1 '--seeds --first --losses --repeats --states' '' '--seeds --first --failures --json --all --losses --repeats --states -h --help'
        esac
        ;;
    schedule)
        case $before in
        --seed) : ;;
        *) _lockreplay_rest 1 1 '--seed' '' '--seed --failures -h --help'
        esac
        ;;
    help)
        ((COMP_CWORD > 2)) || _lockreplay_words 'run threads audit history state judge seat members merge play explain open check picture stats from-strace explore schedule'
        ;;
    esac
}

complete -F _lockreplay lockreplay
