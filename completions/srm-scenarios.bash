# bash completion of srm-scenarios
_srm_scenarios() {
    local word=${COMP_WORDS[COMP_CWORD]} before=${COMP_WORDS[COMP_CWORD-1]} options
    local common="--delay --delay-to --back --back-to --members --source --seed --c1 --c2 --d1 --d2 --adaptive --backoff --draws
        --every --start --drop-link --drop-packet --drop-every --lose-operations --rounds --any-packet --loss --burst
        --spare-draws --scope --widen --tries --steps --outage --join --leave --session-after --no-session --until --help"
    COMPREPLY=()
    if (( COMP_CWORD == 1 )); then
        mapfile -t COMPREPLY < <(compgen -W "chain star tree random file map page --help --version" -- "$word")
        return
    fi
    case $before in
        --members) mapfile -t COMPREPLY < <(compgen -W "all" -- "$word"); return ;;
        --source) mapfile -t COMPREPLY < <(compgen -W "first random" -- "$word"); return ;;
        --drop-link) mapfile -t COMPREPLY < <(compgen -W "adjacent random hops: losers losers:" -- "$word"); return ;;
        --c1 | --c2 | --d1 | --d2) mapfile -t COMPREPLY < <(compgen -W "log10 sqrt" -- "$word"); return ;;
        --scope) mapfile -t COMPREPLY < <(compgen -W "least" -- "$word"); return ;;
        --steps) mapfile -t COMPREPLY < <(compgen -W "1 2" -- "$word"); return ;;
        --backoff) mapfile -t COMPREPLY < <(compgen -W "2 3" -- "$word"); return ;;
        --spanning-tree) mapfile -t COMPREPLY < <(compgen -W "shortest minimum" -- "$word"); return ;;
        --program) mapfile -t COMPREPLY < <(compgen -c -- "$word"); return ;;
        --adaptive | --any-packet | --spare-draws | --no-session | --help) ;;
        --*) return ;;
    esac
    case ${COMP_WORDS[1]} in
        chain | star | random) options="$common --size" ;;
        tree) options="$common --size --degree" ;;
        file) options="$common --delay-attribute --back-attribute --factor --spanning-tree" ;;
        map) options="$common --delay-attribute --back-attribute --factor" ;;
        page) options="--seed --program --title --from --to --name --rows --help" ;;
    esac
    [[ $word == -* ]] && mapfile -t COMPREPLY < <(compgen -W "$options" -- "$word")
}
complete -o default -F _srm_scenarios srm-scenarios
