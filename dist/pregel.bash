# Completion of `pregel` in bash: commands, options and files. Read it in a shell by `source dist/pregel.bash`, or install it:
#     cp dist/pregel.bash ~/.local/share/bash-completion/completions/pregel

# Prints the options of a command, or of the program where none is named.
_pregel_options() {
    case $1 in
    call | verify) echo --max-size --explain ;;
    run)
        echo --keep --resume --lose --again --parts --workers --every --limit --lease --units --all-cores --progress --quiet \
            --report --plot --max-size --explain
        ;;
    replay) echo --parts --workers --every --limit --lease --units ;;
    graph) echo --undirected --value --source --weight --share --names ;;
    '') echo --version ;;
    esac
    echo --help
}

_pregel() {
    local commands='call run replay upgrade asm fit print verify graph console help'
    local word=${COMP_WORDS[COMP_CWORD]} before=${COMP_WORDS[COMP_CWORD - 1]} command=
    [ "$COMP_CWORD" -eq 1 ] || command=${COMP_WORDS[1]}
    case $before in
    --keep) mapfile -t COMPREPLY < <(compgen -d -- "$word") ;;
    --lose | --parts | --workers | --every | --limit | --lease | --max-size | --value | --source | --weight) COMPREPLY=() ;;
    help) mapfile -t COMPREPLY < <(compgen -W "$commands" -- "$word") ;;
    *)
        if [[ $word == -* ]]; then
            mapfile -t COMPREPLY < <(compgen -W "$(_pregel_options "$command")" -- "$word")
        elif [ -z "$command" ]; then
            mapfile -t COMPREPLY < <(compgen -W "$commands" -- "$word")
        else
            mapfile -t COMPREPLY < <(compgen -f -- "$word")
        fi
        ;;
    esac
}

complete -o filenames -F _pregel pregel ./pregel
