# Completes the words of `ubq` in bash. bin/install puts it where bash-completion looks for it; to have it without that, in ~/.bashrc:
#
#   source completions/ubq.bash
#
# Where a word names a file nothing is offered here, and then bash offers the names of files by itself (`-o default`). By hand from
# crates/ub_words/src/builder.rt; tests/completions.py holds it against `ubq --help`.

# Offers those of these words that begin as the current one does, and no names of files.
_ubq_offer() {
    compopt +o default 2>/dev/null
    mapfile -t COMPREPLY < <(compgen -W "$*" -- "$current")
}

# Offers those of these options that stand nowhere yet.
_ubq_offer_options() {
    local option left=()
    for option in "$@"; do
        case $given in *" $option "*) ;; *) left+=("$option") ;; esac
    done
    _ubq_offer "${left[@]}"
}

# Offers the values of the option that waits for one.
_ubq_offer_values() {
    # bash has the = of --dims=2 as a word of its own.
    [ "$current" != = ] || current=
    case $waiting in
    --dims) _ubq_offer {1..4} ;;
    --signed) _ubq_offer {0..15} ;;
    --page-rows) _ubq_offer {2..64} ;;
    *) _ubq_offer ;;
    esac
}

# Reads one word of those before the current one.
_ubq_read() {
    if [ -n "$waiting" ]; then
        [ "$1" = = ] || waiting=
    elif [ "$plain" = yes ]; then
        taken=$((taken + 1))
    else
        case $1 in
        --) plain=yes ;;
        --dims | --signed | --page-rows | --name) given+="$1 " waiting=$1 ;;
        -?*) given+="$1 " ;;
        *) [ -n "$command" ] && taken=$((taken + 1)) || command=$1 ;;
        esac
    fi
}

_ubq() {
    local commands=(load run query append try upgrade describe check next help) help=(-h --help)
    local table=(--dims --signed --page-rows --name)
    local current=${COMP_WORDS[COMP_CWORD]} word command= waiting= plain=no given=' ' taken=0 files=0 options=("${help[@]}")
    COMPREPLY=()
    for word in "${COMP_WORDS[@]:1:COMP_CWORD-1}"; do
        _ubq_read "$word"
    done
    case $command in
    '') options+=(-V --version) ;;
    load | try) files=2 options+=("${table[@]}") ;;
    run | append | upgrade) files=2 ;;
    query | describe | check) files=1 ;;
    next) ;;
    *) options=() ;;
    esac
    if [ -n "$waiting" ]; then
        _ubq_offer_values
    elif [ "$plain" = no ] && [ "${current:0:1}" = - ]; then
        _ubq_offer_options "${options[@]}"
    elif [ -z "$command" ] || [ "$command/$taken" = help/0 ]; then
        _ubq_offer "${commands[@]}"
    elif [ "$taken" -ge "$files" ]; then
        # All files are named, and what may still come is options.
        [ "$plain$files" = no0 ] || [ "$plain" = yes ] && options=()
        _ubq_offer_options "${options[@]}"
    fi
}

complete -o default -F _ubq ubq
