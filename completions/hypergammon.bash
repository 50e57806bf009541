# Completion for bash. Source this file, as in: . completions/hypergammon.bash
# completions/make writes it.

_hypergammon_files() {
    compopt -o filenames 2>/dev/null
    mapfile -t COMPREPLY < <(compgen -P "${word%"$1"}" -f -- "$1")
}

_hypergammon() {
    local commands='board bound race solve show advise migrate verify scan reply ladder plan analyse study make'
    local subjects='position record match files status'
    local -A arguments=(
        [board]='other'
        [bound]='other other other'
        [race]='other other'
        [solve]='file'
        [show]='file other'
        [advise]='file other'
        [migrate]='file file'
        [verify]='file'
        [scan]='file other'
        [reply]='file other'
        [ladder]='file'
        [plan]='file'
        [analyse]='file file'
        [study]='file'
        [make]='other other file'
    )
    local -A options=(
        [board]='--id'
        [bound]='--board'
        [race]='--board'
        [solve]='--checkers --stakes --rounds --workers --width'
        [show]='--board --id --positions --workers --away --crawford --post'
        [advise]='--kind --roll --board --take --rolls --workers --away --cube --value --crawford --post'
        [migrate]='--workers'
        [verify]='--workers'
        [scan]='--workers'
        [reply]='--kind --rounds'
        [ladder]='--checkers --length --rounds --workers'
        [plan]='--length'
        [analyse]='--worst --full --board'
        [study]='--rounds --workers --worst --full --board'
    )
    local -A values=(
        [--checkers]='1 2 3'
        [--length]='1 2 3 4 5'
        [--cube]='centred mine theirs'
        [--value]='1 2 4 8'
        [--stakes]='cubeless money jacoby money-beavers jacoby-beavers'
        [--kind]='alone centred mine theirs near:1:centred far:1:centred near:2:near far:2:near near:2:far far:2:far near:4:near far:4:near near:4:far far:4:far near:8:near far:8:near near:8:far far:8:far'
    )
    # Options without a value, and those whose value is the name of a file.
    local flags=' --id --board --crawford --post --take --full ' files=' --positions --rolls '
    local words=() word last='' command option='' value place=0 choices='' i
    # Bash cuts words at `=` and `:`; here they are whole again.
    for word in "${COMP_WORDS[@]:0:COMP_CWORD+1}"; do
        if [[ ${#words[@]} -gt 1 && ($word == [=:] || $last == [=:]) ]]; then
            words[-1]+=$word
        else
            words+=("$word")
        fi
        last=$word
    done
    [[ $last != [=:] ]] || last=
    word=${words[-1]} command=${words[1]-}
    COMPREPLY=()

    # How many arguments stand before the last word, and the option whose value it is.
    for ((i = 2; i < ${#words[@]} - 1; i++)); do
        if [ "$option" ]; then
            option=
        elif [[ ${words[i]} == --* ]]; then
            [[ ${words[i]} == *=* || $flags == *" ${words[i]} "* ]] || option=${words[i]}
        else
            ((place += 1))
        fi
    done
    value=$word
    [[ $option || $word != --*=* ]] || option=${word%%=*} value=${word#*=}

    if [ "${#words[@]}" -eq 2 ]; then
        choices="$commands help --help --version"
    elif [ "$command" = help ]; then
        [ "${#words[@]}" -gt 3 ] || choices="$commands $subjects"
    elif [ "$option" ]; then
        if [[ " ${options[$command]-} " == *" $option "* ]]; then
            choices=${values[$option]-}
            [[ $files != *" $option "* ]] || _hypergammon_files "$value"
        fi
    elif [[ $word == -* ]]; then
        choices=${options[$command]-}
        [[ ${#words[@]} -ne 3 || ! ${arguments[$command]-} ]] || choices+=' --help'
    else
        read -ra words <<<"${arguments[$command]-}"
        case ${words[place]-none} in
            file) _hypergammon_files "$value" ;;
            none) choices=${options[$command]-} ;;
        esac
    fi
    [ ! "$choices" ] || mapfile -t COMPREPLY < <(compgen -P "${word%"$value"}" -W "$choices" -- "$value")
    # Of a word that bash has cut only the last part is replaced.
    COMPREPLY=("${COMPREPLY[@]#"${word%"$last"}"}")
}

complete -F _hypergammon hypergammon ./hypergammon
