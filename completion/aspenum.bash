# Completion of aspenum for bash: each option once, in one of its forms, its values, help and the version as the first word, and
# files after a redirection. It needs nothing of bash-completion.
_aspenum() {
    local line=${COMP_LINE:0:COMP_POINT} option stem=""
    local -a words given=() left=()
    read -ra words <<< "$line"
    [[ $line != *[[:blank:]] ]] || words+=("")
    local last=$((${#words[@]} - 1))
    local word=${words[last]}
    COMPREPLY=()

    if [[ $word == *[\<\>]* || ${words[last - 1]} == *[\<\>] ]]; then
        compopt -o default
        return
    fi

    option=${words[last - 1]}
    if [[ $word == --*=* ]]; then
        option=${word%%=*}
        word=${word#*=}
        # what comes after the = is replaced where = breaks words, and else the whole word
        [[ $COMP_WORDBREAKS == *=* ]] || stem="$option="
    fi
    case $option in
        --mode | -e) mapfile -t COMPREPLY < <(compgen -P "$stem" -W "auto enum opt brave cautious" -- "$word") && return ;;
        --format) mapfile -t COMPREPLY < <(compgen -P "$stem" -W "aspif smodels" -- "$word") && return ;;
        --log) mapfile -t COMPREPLY < <(compgen -P "$stem" -W "blocks row" -- "$word") && return ;;
        --output) mapfile -t COMPREPLY < <(compgen -P "$stem" -W "text json" -- "$word") && return ;;
        --workers | -t) mapfile -t COMPREPLY < <(compgen -P "$stem" -W "1 2 4 8 16 32 64" -- "$word") && return ;;
        --budget | --models | -n | --make | --split | --help | -h | --version | --) return ;;
    esac
    [[ $word == "${words[last]}" ]] || return

    for option in "${words[@]:1:last-1}"; do
        case $option in
            -e) option=--mode ;;
            -n) option=--models ;;
            -t) option=--workers ;;
            -q) option=--quiet ;;
            --opt-mode=optN) option=--opt-all ;;
            --opt-mode=*) option=--mode ;;
            --outf=*) option=--output ;;
        esac
        given+=("${option%%=*}")
    done
    # a proof and queries exclude some options, and each of them these; the parts exclude all but the ring; JSON excludes the ring, too
    for option in "${given[@]}"; do
        case $option in
            --proof) given+=(--split --output --quiet --queries) ;;
            --split) given+=(--mode --models --opt-all --stream --workers --log --budget --output --quiet --names --proof --queries --core-min --stats --progress) ;;
            --opt-all | --stream) given+=(--split --queries) ;;
            --quiet) given+=(--split --proof) ;;
            --output) given+=(--split --proof --make) ;;
            --make) given+=(--output --queries) ;;
            --queries) given+=(--split --proof --opt-all --stream --make --models) ;;
            --models) given+=(--split --queries) ;;
            --mode | --workers | --log | --budget | --names | --core-min | --stats | --progress) given+=(--split) ;;
        esac
    done
    for option in --mode --format --models --opt-all --stream --workers --log --budget --output --quiet --names --proof --split --make --queries --core-min --stats --progress; do
        [[ " ${given[*]} " == *" $option "* ]] || left+=("$option")
    done
    [[ $last -ne 1 ]] || left+=(--help --version)
    mapfile -t COMPREPLY < <(compgen -W "${left[*]}" -- "$word")
}
complete -F _aspenum aspenum

# aspground: files and a few words before --, and what aspenum takes after it.
_aspground() {
    local line=${COMP_LINE:0:COMP_POINT}
    if [[ $line =~ [[:blank:]]--[[:blank:]](.*) ]]; then
        local COMP_LINE="aspenum ${BASH_REMATCH[1]}"
        local COMP_POINT=${#COMP_LINE}
        _aspenum
        return
    fi
    COMPREPLY=()
    if [[ $line =~ [[:blank:]](-[^[:blank:]]*)$ ]]; then
        mapfile -t COMPREPLY < <(compgen -W "-- --help --version" -- "${BASH_REMATCH[1]}")
    else
        compopt -o default
    fi
}
complete -F _aspground aspground

# aspcheck: the program's format, help and the version, and files after a redirection.
_aspcheck() {
    local line=${COMP_LINE:0:COMP_POINT} stem=""
    local -a left=(--format --help --version)
    COMPREPLY=()
    if [[ $line =~ [\<\>][[:blank:]]*[^[:blank:]]*$ ]]; then
        compopt -o default
    elif [[ $line =~ [[:blank:]]--format(=|[[:blank:]]+)([^[:blank:]]*)$ ]]; then
        [[ ${BASH_REMATCH[1]} != = || $COMP_WORDBREAKS == *=* ]] || stem="--format="
        mapfile -t COMPREPLY < <(compgen -P "$stem" -W "aspif smodels" -- "${BASH_REMATCH[2]}")
    elif [[ $line =~ [[:blank:]]([^[:blank:]]*)$ ]]; then
        [[ ! ${line%"${BASH_REMATCH[1]}"} =~ [[:blank:]]--format ]] || left=()
        mapfile -t COMPREPLY < <(compgen -W "${left[*]}" -- "${BASH_REMATCH[1]}")
    fi
}
complete -F _aspcheck aspcheck
