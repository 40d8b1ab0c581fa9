# Completion of xstate's words for bash. Source this file, or put it under the name `xstate` into
# /usr/share/bash-completion/completions. `gen` and `demo` take a number, for which nothing is offered.
_xstate() {
    COMPREPLY=()
    if [ "$COMP_CWORD" -eq 1 ]; then
        mapfile -t COMPREPLY < <(compgen -W 'run replay check gen demo' -- "${COMP_WORDS[1]}")
    fi
}
complete -F _xstate xstate
