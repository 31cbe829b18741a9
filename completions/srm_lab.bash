# bash completion of srm_lab
_srm_lab() {
    local word=${COMP_WORDS[COMP_CWORD]} before=${COMP_WORDS[COMP_CWORD-1]}
    COMPREPLY=()
    case $before in
        --show) mapfile -t COMPREPLY < <(compgen -W "trace members losses operations links timers scopes" -- "$word") ;;
        --engine) mapfile -t COMPREPLY < <(compgen -W "step window" -- "$word") ;;
        --crew) mapfile -t COMPREPLY < <(compgen -W "plain pool bag team" -- "$word") ;;
        --width) mapfile -t COMPREPLY < <(compgen -W "least promise" -- "$word") ;;
        --seed | --replications | --workers | --cut) ;;
        *) mapfile -t COMPREPLY < <(compgen -W "--seed --replications --engine --crew --workers --cut --width --show --check --explain --rules --help --version" -- "$word") ;;
    esac
}
complete -o default -F _srm_lab srm_lab
