# shellcheck shell=sh disable=SC2154
# What the launcher doesn't follow, run or leave, whatever stands beside it: the stamp, limits, tools of other systems.

# Whether a start gives the right answer without waiting, and leaves a plain stamp that names the shipped program.
starts_well() {
    run timeout -k 1 20 ./w4 check $cart
    is_silent && [ "$(cat out)" = ok ] && [ "$(echo release/stamp*)" = release/stamp ] || return 1
    [ -f release/stamp ] && [ ! -L release/stamp ] && [ "$(head -n 1 release/stamp)" = release/w4 ]
}

# A pipe, a link to a stamp, a link to nothing: each makes way for a stamp, and what was linked stays.
takes_plain_stamps() {
    rm -rf release/stamp && mkfifo release/stamp && starts_well || return 1
    mv release/stamp theirs && cp theirs before && ln -s ../theirs release/stamp && starts_well || return 1
    cmp -s theirs before || return 1
    rm -f release/stamp && ln -s ../absent release/stamp && starts_well && [ ! -e absent ]
}

# A folder can't make way; all is looked at then, and nothing is put into it.
leaves_a_folder() {
    rm -rf release/stamp* && mkdir release/stamp || return 1
    run timeout -k 1 20 ./w4 check $cart
    is_silent && [ "$(cat out)" = ok ] && [ "$(find release -name 'stamp*')" = release/stamp ] && rmdir release/stamp
}

# A stamp that names another program, as new as a good one.
runs_known_programs() {
    rm -rf release/stamp*
    printf '%s\n' '#!/bin/sh' 'echo evil' >evil && chmod 755 evil || return 1
    ./w4 check $cart >out 2>err
    for name in evil ../at/evil release/../evil "$PWD/evil"; do
        sed -i "1s|.*|$name|" release/stamp && starts_well || return 1
    done
}

# A start that is killed with SIGKILL while it looks; the next one removes what it has left, and nothing else.
clears_after_a_kill() {
    echo 'kill -KILL "$PPID"' | make_tool sleep
    rm -rf release/stamp*
    run with_tools ./w4 check $cart
    rm "$room/tools/sleep"
    ended 1 && [ "$(echo release/stamp.*)" != 'release/stamp.*' ] || return 1
    starts_well || return 1
    theirs="release/stamp.notes release/stamp.$$.abcdef release/stamp.txt.abcdef"
    # shellcheck disable=SC2086
    touch $theirs && mkdir release/stamp.1x.abcdef && ln -s BUILD release/stamp.999999999.abcdef || return 1
    touch -d '3 days ago' release/stamp release/stamp.AbCd12
    run ./w4 check $cart
    # shellcheck disable=SC2086
    is_silent && ls -d $theirs release/stamp.1x.abcdef release/stamp.999999999.abcdef >out 2>&1 || return 1
    [ ! -e release/stamp.AbCd12 ] && find release -name 'stamp.*' -exec rm -rf {} +
}

# A file that may not grow is status 8, and what there was stays.
tells_a_limit() {
    (
        ulimit -f 8
        run ./w4 frames $cart examples/garden/game.w4rec examples/first/font.bin 0 240
        ended 8 'w4: cannot write'
    ) || return 1
    for line in $(seq 900); do echo "insert $line 32 0 0 0 32767 32767 0"; done >long.txt
    echo before >OUT
    (
        ulimit -f 1
        run ./w4 edit $cart examples/garden/game.w4rec examples/first/font.bin long.txt OUT
        ended 8 'w4: cannot write'
    ) && [ "$(cat OUT)" = before ] && [ "$(echo OUT*)" = OUT ]
}

# A sha256sum that knows no --status, such as that of busybox; a damaged program is told all the same.
does_without_status() {
    make_tool sha256sum <<'END'
for word; do [ "$word" != --status ] || { echo "sha256sum: unrecognized option '--status'" >&2; exit 1; }; done
exec /usr/bin/sha256sum "$@"
END
    rm -rf release/stamp*
    with_tools starts_well || return 1
    mkdir -p crates/w4_program/out && cp release/w4 crates/w4_program/out/w4_program && stand_in "$(kit)"
    PATH=$room/rt:$PATH run with_tools release/compare
    [ "$(tail -n 1 out)" = '4 passed, 0 failed' ] || return 1
    rm -rf crates/w4_program/out release/stamp
    cp release/w4 as-it-was && change_byte release/w4
    run with_tools ./w4 check $cart
    ended 1 "release/w4 isn't the file that release/SHA256SUMS has" && cp as-it-was release/w4 && rm "$room/tools/sha256sum"
}

# As /bin/sh may be: a shell that knows the signal, and one in which its name is a mistake.
ignores_the_limit_in() {
    sed '1,/^command trap/!d' w4 >first-lines && printf '%s\n' 'grep "^SigIgn" /proc/self/status' >>first-lines
    run "$@" first-lines
    # SIGXFSZ is number 25, so the first digit of the last seven.
    is_silent && grep -q '^SigIgn:.*[13579bdf]......$' out || return 1
    sed -i 's/XFSZ/NOSUCH/' first-lines
    run "$@" first-lines
    ended 0 && grep -q '^SigIgn' out
}

try_guarded() {
    small_checkout
    try "a stamp that is a pipe or a link is made anew" takes_plain_stamps
    try "a stamp that is a folder is left alone" leaves_a_folder
    try "a stamp names one of two programs" runs_known_programs
    try "what a killed start has left is removed by the next, and nothing else" clears_after_a_kill
    try "a limit of file sizes is status 8" tells_a_limit
    try "a sha256sum without --status does" does_without_status
    for shell in dash bash 'busybox sh'; do
        if command -v "${shell%% *}" >/dev/null; then
            # shellcheck disable=SC2086
            try "$shell ignores the signal of a limit, and goes on without its name" ignores_the_limit_in $shell
        else
            echo "not tried: the launcher in $shell, which isn't there"
        fi
    done
}
