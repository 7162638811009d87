# Completions for bash: of `mme`, and of the tools by what each one's own help says. Installed as
# /usr/share/bash-completion/completions/mme and under each tool's name; in a clone: `. deploy/completion.bash`.

_mme_files() {
    compopt -o filenames 2>/dev/null
    mapfile -t COMPREPLY < <(compgen -f -- "$1")
}

_mme_words() {
    mapfile -t COMPREPLY < <(compgen -W "$1" -- "$2")
}

_mme() {
    local current=${COMP_WORDS[COMP_CWORD]} at=1
    COMPREPLY=()
    if [ "${COMP_WORDS[1]-}" = --explain ]; then
        at=2
    fi
    if [ "$COMP_CWORD" -lt "$at" ] || [ "$COMP_CWORD" -gt $((at + 1)) ]; then
        return
    elif [ "$COMP_CWORD" = 1 ]; then
        _mme_words "play sim --explain --prove --library --version --help" "$current"
    elif [ "$COMP_CWORD" = "$at" ]; then
        _mme_words "play sim" "$current"
    elif [ "${COMP_WORDS[at]}" = --prove ] || [ "${COMP_WORDS[at]}" = --library ]; then
        _mme_words "x86-64 x86-64-v2 x86-64-v3" "$current"
    elif [ "${COMP_WORDS[at]}" = play ] || [ "${COMP_WORDS[at]}" = sim ]; then
        _mme_files "$current"
    fi
}

# The options and the commands of a tool, as its help names them; else files.
_mme_tool() {
    local current=${COMP_WORDS[COMP_CWORD]} told commands command
    COMPREPLY=()
    told=$("$1" --help 2>/dev/null) || return
    commands=$(sed -n 's/^usage:.* \([a-z]*\(|[a-z]*\)*\) \.\.\.$/\1/p' <<<"$told" | tr '|' ' ')
    for command in $commands; do
        if [ "$COMP_CWORD" -gt 1 ] && [ "${COMP_WORDS[1]}" = "$command" ]; then
            told=$("$1" "$command" --help 2>/dev/null)
            commands=
        fi
    done
    if [[ $current == -* ]]; then
        _mme_words "$(grep -oE '(^| |\[)--?[a-z][a-z-]*' <<<"$told" | tr -d ' [' | sort -u)" "$current"
    elif [ -n "$commands" ] && [ "$COMP_CWORD" = 1 ]; then
        _mme_words "$commands" "$current"
    else
        _mme_files "$current"
    fi
}

complete -F _mme mme ./mme
complete -F _mme_tool mme-vectors mme-s6a mme-show mme-explain mme-chart mme-capture mme-front mme-gateway
complete -F _mme_tool tools/vectors tools/s6a tools/show tools/explain tools/chart tools/capture tools/front tools/gateway
