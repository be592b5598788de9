# shellcheck shell=sh disable=SC2154
# What the launcher says beside the program: help for one command, a wrong command line, and more on a terminal.

# The statuses of each command, after the definitions of crates/w4_defs/specs (Commands, Completeness, StatusLines), and
# of the launcher's own commands.
statuses='check 0 2 3 7 8 9
blank 0 2 3 4 7 8 9
edit 0 2 3 4 5 6 7 8 9
serve 0 2 3 4 5 7 8 9 13
frames 0 2 3 4 5 7 8 9 10
tones 0 2 3 4 5 7 8 9
trace 0 2 3 4 5 7 8 9
disk 0 2 3 4 5 7 8 9 10
units 0 2 3 4 5 7 8 9
compare 0 1 2 3 4 5 7 8 9
rebind 0 2 3 4 7 8 9
inputs 0 2 4 7 8 9
ram 0 2 3 4 5 6 7 8 9
wave 0 2 3 4 5 7 8 9
batch 0 2 3 5 7 8 9 12
net 0 2 3 5 6 7 8 9
make 0 2 8 9
help 0 2
studio 0 1 2 8'

# The forms of README's tables of commands.
forms() {
    sed -n '/^## The commands/,/^## /s/^| `\([a-z][^`]*\)` .*/\1/p' README.md
}

# Each command has a help of its own, by either way to ask for it: its form, its statuses, and an example of it.
helps_with_each() {
    forms >rows
    [ "$(wc -l <rows)" -ge 19 ] || return 1
    while read -r command words; do
        run ./w4 "$command" --help
        is_silent && mv out by-flag && run ./w4 help "$command" && is_silent && cmp -s out by-flag || return 1
        [ "$(head -n 1 out)" = "usage: ./w4 $command${words:+ $words}" ] || return 1
        has=$(sed -n '/^status:/,/^example:/s/^    \([0-9]*\) .*/\1/p' out | tr '\n' ' ')
        echo "$statuses" | grep -qx "$command ${has% }" || return 1
        sed -n '/^example:/,$p' out | grep -q "^    .*\./w4 $command" || return 1
    done <rows
    [ "$(wc -l <rows)" = "$(echo "$statuses" | wc -l)" ]
}

# What a status means stands there as README has it.
tells_meanings() {
    run ./w4 help serve
    is_silent && grep -qx "    5   the font hasn't 1,792 bytes" out && grep -qx '    9   memory ran out' out || return 1
    grep -q "^| 13 | .serve. | a session's standard input can't be read |" README.md &&
        grep -qx "    13  a session's standard input can't be read" out
}

# Each example can be run as it stands; its launcher is that of the checkout, or $1.
runs_examples() {
    forms | sed 's/ .*//; /^studio$/d' >names
    while read -r command; do
        run "${1:-./w4}" help "$command"
        example=$(sed '1,/^example:/d' out)
        run sh -c "$example"
        [ -s out ] || [ "${example%>*}" != "$example" ] || [ "$command" = edit ] || return 1
        is_silent || { [ "$command" = compare ] && ended 1 && [ ! -s err ]; } || return 1
    done <names
}

# A word that is no command: the nearest is named, and nothing else happens.
names_the_nearest() {
    for pair in fraems:frames comp:compare chekc:check studoi:studio 'unit s:units' wav:wave edti:edit ''; do
        [ -n "$pair" ] || continue
        run ./w4 help "${pair%:*}"
        ended 2 "the nearest is ${pair#*:}." && [ "$(wc -l <err)" = 1 ] && [ ! -s out ] || return 1
        run ./w4 "${pair%:*}" --help
        ended 2 "the nearest is ${pair#*:}." && [ ! -s out ] || return 1
    done
    run ./w4 chekc $cart
    ended 2 'w4: usage' 'the nearest is check.' && [ "$(wc -l <err)" = 2 ]
}

# After a wrong command line the command's own form follows the program's line.
adds_the_form() {
    forms | grep -v '^studio\|^help' >rows
    while read -r form; do
        run ./w4 "${form%% *}" too many words for any of the commands
        ended 2 "w4: it is ./w4 $form; ./w4 help ${form%% *} says more" && [ "$(head -n 1 err)" = 'w4: usage' ] &&
            [ "$(wc -l <err)" = 2 ] && [ ! -s out ] || return 1
    done <rows
    run ./w4 help check units
    ended 2 'w4: usage' 'w4: it is ./w4 help [COMMAND]'
}

# A file of that name, and that word among others.
asks_by_one_word_alone() {
    cp $cart ./--help && run ./w4 check ./--help
    is_silent && [ "$(cat out)" = ok ] && rm ./--help || return 1
    run ./w4 check --help $cart
    ended 2 'w4: usage'
}

on_terminal() {
    run python3 "$top/release/tries/on_terminal.py" "$@"
}

# More is said on a terminal: which file, and what to do. Elsewhere nothing is added.
says_more() {
    recording=examples/garden/game.w4rec
    font=examples/first/font.bin
    on_terminal ./w4 frames $cart absent.w4rec $font 0 1
    ended 7 'w4: cannot read' 'there is no file absent.w4rec' || return 1
    on_terminal ./w4 compare $cart $recording $cart $recording examples
    ended 7 'w4: cannot read' 'examples is a folder' || return 1
    printf '%s\n' $recording gone.w4rec >list.txt
    on_terminal ./w4 batch $cart $font list.txt 2
    ended 7 'there is no file gone.w4rec' 'list.txt names it' || return 1
    on_terminal ./w4 tones examples/first/cart.wasm $recording $font
    ended 4 'w4: recording: wrong cart' "./w4 rebind examples/first/cart.wasm $recording > " || return 1
    on_terminal ./w4 inputs $cart
    ended 4 'w4: recording: bad' "$cart is no recording" || return 1
    printf '\0asm\1\0\0\0\1\5\1\140\0\1\175' >floats.wasm
    on_terminal ./w4 check floats.wasm
    ended 3 'w4: cart: floats' 'floats.wasm has floats' 'fixed-point' || return 1
    on_terminal ./w4 tones $cart $recording $cart
    ended 5 'w4: font: not 1792 bytes' "$cart is no font: examples/first/font.bin" || return 1
    on_terminal ./w4 check $cart
    is_silent && [ "$(cat out)" = ok ] || return 1
    run ./w4 tones examples/first/cart.wasm $recording $font
    ended 4 && [ "$(cat err)" = 'w4: recording: wrong cart' ]
}

# A file that only its owner may read, asked for by another user.
says_what_is_forbidden() {
    cp $cart secret.wasm && chmod 600 secret.wasm && : >out && : >err
    run python3 "$top/release/tries/on_terminal.py" setpriv --reuid 65534 --regid 65534 --clear-groups \
        ./w4 check secret.wasm
    ended 7 'w4: cannot read' 'you may not read secret.wasm'
}

# A session on a terminal ends as the program does by a signal, be it sent to the launcher alone or typed, and nothing
# of it is left. $1 is the status, the rest is for on_terminal.py.
ends_by_signal() {
    wanted=$1
    shift
    rm -f orders && mkfifo orders && exec 9<>orders && echo 'state 0' >&9
    python3 "$top/release/tries/on_terminal.py" "$@" ./w4 serve $cart examples/garden/game.w4rec \
        examples/first/font.bin OUT <orders >out 2>err
    status=$?
    exec 9<&-
    [ "$status" = "$wanted" ] && grep -q '^state 0 of 240' out || return 1
    for process in /proc/[0-9]*; do
        [ "$(readlink "$process/exe")" != "$PWD/release/w4" ] || return 1
    done
}

passes_signals() {
    ends_by_signal 143 --send SIGTERM && ends_by_signal 129 --send SIGHUP && ends_by_signal 130 --send SIGINT &&
        ends_by_signal 130 --type '^C'
}

# In the background of a script, where SIGINT is ignored, it stays so: the program takes the launcher's place.
keeps_ignored_signals() {
    { echo 'state 0'; sleep 2; } | python3 "$top/release/tries/on_terminal.py" --type '^C' \
        sh -c 'trap "" INT; exec "$@"' sh ./w4 serve $cart examples/garden/game.w4rec examples/first/font.bin KEPT >out 2>err
    status=$?
    ended 0 && [ -s KEPT ]
}

try_helped() {
    small_checkout
    try "each command has a help of its own" helps_with_each
    try "a status means what README says" tells_meanings
    try "the examples of help run" runs_examples
    try "the nearest command is named" names_the_nearest
    try "after a wrong command line the command's form is said" adds_the_form
    try "--help asks for help alone" asks_by_one_word_alone
    if ! command -v python3 >/dev/null; then
        echo "not tried: what is said on a terminal, which wants python3"
        return
    fi
    try "on a terminal the file and what to do are said" says_more
    if [ "$(id -u)" = 0 ] && command -v setpriv >/dev/null; then
        try "on a terminal a file that may not be read is said" says_what_is_forbidden
    else
        echo "not tried: a file that may not be read, which wants root and setpriv"
    fi
    try "on a terminal signals and statuses are the program's" passes_signals
    try "on a terminal an ignored signal stays ignored" keeps_ignored_signals
}
