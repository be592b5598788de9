# shellcheck shell=sh disable=SC2154
# Completion for bash and zsh.

# The first word is completed to commands, others to files with the endings of their kind, in bash.
completes() {
    run bash -c '. "$1/share/bash-completion/completions/w4"
        COMP_WORDS=(w4 fra); COMP_CWORD=1; _w4_complete; echo "${COMPREPLY[*]}"
        COMP_WORDS=(w4 check examples/garden/ca); COMP_CWORD=2; _w4_complete; echo "${COMPREPLY[*]}"
        COMP_WORDS=(w4 frames x.wasm examples/garden/ga); COMP_CWORD=3; _w4_complete; echo "${COMPREPLY[*]}"
        COMP_WORDS=(w4 make ""); COMP_CWORD=2; _w4_complete; echo "${#COMPREPLY[*]}"' bash "$prefix"
    is_silent && [ "$(cat out)" = "$(printf '%s\n' frames examples/garden/cart.wasm examples/garden/game.w4rec 0)" ]
}

# A folder of names that a shell reads as something else: a pattern, spaces, quotes, a command, a line break.
odd_names() {
    rm -rf "$room/names" && mkdir "$room/names" "$room/names/sub folder" && cd "$room/names" || return 1
    touch plain.wasm other.txt '*.wasm' 'with space.wasm' "it's.wasm" 'a"b.wasm' '$(touch ran).wasm' 'back\slash.wasm' \
        "$(printf 'line\nbreak.wasm')"
}

# What bash completes the word $1 to, behind `w4 check`, is the names behind it, in any order; under whatever options.
bash_completes() {
    word=$1
    shift
    bash -c 'shopt -s failglob; . "$1"; set -f; IFS=s; COMP_WORDS=(w4 check "$2"); COMP_CWORD=2; _w4_complete
        printf "%s\0" "${COMPREPLY[@]}"' bash "$prefix/share/bash-completion/completions/w4" "$word" 2>../err |
        sort -z >../out
    printf '%s\0' "$@" | sort -z | cmp -s - ../out && [ ! -s ../err ] && [ ! -e ran ]
}

completes_odd_names() {
    odd_names || return 1
    newline=$(printf 'line\nbreak.wasm')
    bash_completes '' plain.wasm '*.wasm' 'with space.wasm' "it's.wasm" 'a"b.wasm' '$(touch ran).wasm' \
        'back\slash.wasm' "$newline" 'sub folder' &&
        bash_completes '\*' '*.wasm' && bash_completes "'*" '*.wasm' && bash_completes 'with\ s' 'with space.wasm' &&
        bash_completes '"with s' 'with space.wasm' && bash_completes "it\\'" "it's.wasm" &&
        bash_completes "\"it'" "it's.wasm" && bash_completes "'\$(t" '$(touch ran).wasm' &&
        bash_completes 'line' "$newline" && bash_completes 'back\\' 'back\slash.wasm' && bash_completes 'su' 'sub folder'
    result=$?
    cd "$room/at" && return "$result"
}

# Commands and the launcher's own are completed, after help too.
completes_help() {
    run bash -c '. "$1/share/bash-completion/completions/w4"
        COMP_WORDS=(w4 stu); COMP_CWORD=1; _w4_complete; echo "${COMPREPLY[*]}"
        COMP_WORDS=(w4 help fra); COMP_CWORD=2; _w4_complete; echo "${COMPREPLY[*]}"
        COMP_WORDS=(w4 studio examples/garden/ca); COMP_CWORD=2; _w4_complete; echo "${COMPREPLY[*]}"
        COMP_WORDS=(w4 blank x.wasm 1 examples/garden/edi); COMP_CWORD=4; _w4_complete; echo "${COMPREPLY[*]}"' bash "$prefix"
    is_silent && [ "$(cat out)" = "$(printf '%s\n' studio frames examples/garden/cart.wasm examples/garden/edits.txt)" ]
}

# What zsh makes of a line when Tab is typed at its end, as the words that it then has, each with byte 0 behind it.
zsh_completes() {
    rm -f ../buffer
    printf '%s\t' "$1" | FUNCTIONS=$prefix/share/zsh/site-functions BUFFER_FILE=$room/buffer timeout 60 zsh -f -c '
        zmodload zsh/zpty
        zpty w4 zsh -f -i
        zpty -w w4 "fpath=(\$FUNCTIONS \$fpath); autoload -U compinit; compinit -D -u"
        zpty -w w4 "tab() { zle complete-word; print -r -- \$BUFFER >\$BUFFER_FILE.new; mv \$BUFFER_FILE.new \$BUFFER_FILE }"
        zpty -w w4 "zle -N tab; bindkey \"^I\" tab"
        zpty -w -n w4 "$(cat)"
        for _ in {1..500}; do
            [[ -e $BUFFER_FILE ]] && break
            zpty -r -t w4 output
            sleep 0.1
        done
        zpty -d w4' >../out 2>../err
    [ -s ../buffer ] && zsh -f -c 'eval "words=($(cat "$1"))"; printf "%s\0" $words' zsh ../buffer >../words
}

zsh_completes_odd_names() {
    odd_names || return 1
    newline=$(printf 'line\nbreak.wasm')
    zsh_completes 'w4 check lin' && printf '%s\0' w4 check "$newline" | cmp -s - ../words &&
        zsh_completes 'w4 check it' && printf '%s\0' w4 check "it's.wasm" | cmp -s - ../words &&
        zsh_completes 'w4 check \*' && printf '%s\0' w4 check '*.wasm' | cmp -s - ../words &&
        zsh_completes 'w4 help fram' && printf '%s\0' w4 help frames | cmp -s - ../words && [ ! -e ran ]
    result=$?
    cd "$room/at" && return "$result"
}

try_completed() {
    small_checkout
    prefix="$room/a folder"
    ./install "$prefix" >out 2>err
    try "bash completes commands and files" completes
    try "bash completes names with patterns, spaces, quotes and line breaks" completes_odd_names
    try "bash completes the launcher's own commands" completes_help
    if command -v zsh >/dev/null; then
        try "zsh reads its completion" zsh -n -c "$(release/completion zsh w4)"
        try "zsh completes names with patterns, quotes and line breaks" zsh_completes_odd_names
    else
        echo "not tried: completion for zsh, which isn't there"
    fi
}
