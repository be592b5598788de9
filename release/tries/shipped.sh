# shellcheck shell=sh disable=SC2154
# What the launcher does with the shipped program, and where sources have changed; release/compare and release/renew.

# The first command of README, in a new checkout, within a second. The machine may be busy, so the best of three counts.
first_command() {
    command=$(sed -n '/^## Two commands/,$s/^    //p' "$top/README.md" | head -n 1)
    best=1000000000
    for _ in 1 2 3; do
        checkout
        began=$(date +%s%N)
        sh -c "$command" 2>err || return 1
        took=$((($(date +%s%N) - began) / 1000))
        [ "$took" -ge "$best" ] || best=$took
        has_sum frames.ppm "$(wanted out)" && has_sum edited.w4rec "$(wanted left)" && [ ! -s err ] || return 1
    done
    echo "README's first command took $((best / 1000)) ms"
    [ "$best" -lt 1000000 ]
}

helps() {
    run ./w4 --help && cp out help && ended 0 || return 1
    for word in -h help; do
        run ./w4 "$word" && cmp -s out help || return 1
    done
    sed -n '/^## The commands/,/^## /s/^| `\([a-z][^`]*\)` .*/    \1/p' README.md >rows
    [ "$(wc -l <rows)" -ge 12 ] && [ "$(grep -cxFf rows help)" = "$(wc -l <rows)" ]
}

tells_version() {
    run ./w4 --version
    is_silent && [ "$(head -n 1 out)" = "w4 $(sed -n 's/^version //p' release/BUILD)" ] &&
        grep -qx "kit $(kit)" out && grep -qx "sources $(release/sources)" out &&
        grep -qx "program $(sha256sum <release/w4 | cut -d ' ' -f 1)" out && [ "$(wc -l <out)" = 4 ]
}

# Words that match no command, by their first, by their number, and by a number among them.
hints() {
    run ./w4
    ended 2 'w4: usage' 'w4: ./w4 --help shows the commands' && [ "$(wc -l <err)" = 2 ] && [ ! -s out ] || return 1
    for words in check "check $cart $cart" "blank $cart 0" "blank $cart x" 'make 4294967296' \
        "frames $cart examples/garden/game.w4rec examples/first/font.bin 2 1"; do
        # shellcheck disable=SC2086
        run ./w4 $words
        ended 2 'w4: usage' "w4: it is ./w4 ${words%% *} " && [ "$(wc -l <err)" = 2 ] && [ ! -s out ] || return 1
    done
    run ./w4 check absent
    ended 7 && [ "$(cat err)" = 'w4: cannot read' ]
}

# The launcher is the program once it runs, so that a signal reaches it: it writes to a pipe that nobody reads.
becomes_the_program() {
    mkfifo pipe && exec 9<>pipe
    ./w4 frames $cart examples/garden/game.w4rec examples/first/font.bin 0 240 >pipe &
    for _ in 1 2 3 4 5 6 7 8 9 10; do
        sleep 0.2
        [ "$(readlink "/proc/$!/exe")" = "$PWD/release/w4" ] && break
    done
    [ "$(readlink "/proc/$!/exe")" = "$PWD/release/w4" ] || { kill -9 $!; return 1; }
    kill -TERM $!
    wait $! 2>/dev/null
    [ "$?" = 143 ] && exec 9<&- && rm pipe
}

# Newer times alone change nothing, and the stamp is made anew.
runs_with_newer_times() {
    run ./w4 check $cart
    find crates crates.txt -exec touch {} +
    find crates.txt -newer release/stamp | grep -q . && run ./w4 check $cart && is_silent &&
        [ -z "$(find crates.txt -newer release/stamp)" ]
}

# Whether a changed source is told, and how to get back; and whether it runs again once $1 has put all right. The stamp
# is made old, as it is after five seconds.
tells_change() {
    touch -d '1 minute ago' release/stamp
    run ./w4 check $cart
    ended 1 'no command rt' 'git checkout -- crates crates.txt' && [ ! -s out ] || return 1
    run ./w4 --version
    grep -q '^changed: ' out || return 1
    eval "$1"
    run ./w4 check $cart
    is_silent && [ "$(cat out)" = ok ]
}

# A file of each kind: code, definition, list of crates; a new one; one that is gone.
tells_changes() {
    for file in crates/w4_program/src/run.rt crates/w4_defs/specs/Image.antt crates.txt; do
        cp -p "$file" as-it-was
        echo >>"$file"
        tells_change 'cp as-it-was "$file"' || return 1
    done
    echo >crates/w4_defs/specs/New.antt
    tells_change 'rm crates/w4_defs/specs/New.antt' || return 1
    mv crates/w4_defs/specs/Image.antt as-it-was
    tells_change 'mv as-it-was crates/w4_defs/specs/Image.antt'
}

# A change of code is told at once; a change that comes with an old time, too.
tells_code_at_once() {
    run ./w4 check $cart
    cp -p crates/w4_program/src/run.rt as-it-was
    sed 's/w4_run/w4_ran/' as-it-was >changed && touch -r as-it-was changed
    cp -p changed crates/w4_program/src/run.rt
    run ./w4 check $cart
    ended 1 'no command rt'
}

builds_changes() {
    stand_in "$(kit)"
    run with_rt ./w4 check $cart
    ended 0 'w4: built' && [ "$(cat out)" = built ] || return 1
    run ./w4 check $cart
    is_silent && [ "$(cat out)" = built ] || return 1
    find crates -name '*.rt' -exec touch {} +
    run ./w4 check $cart
    is_silent && [ "$(cat out)" = built ]
}

# A damaged program isn't run, and another machine is told.
refuses_damage() {
    checkout
    change_byte release/w4
    run ./w4 check $cart
    ended 1 "release/w4 isn't the file that release/SHA256SUMS has"
}

refuses_another_machine() {
    checkout
    mkdir -p "$room/mac"
    printf '%s\n' '#!/bin/sh' 'echo Darwin arm64' >"$room/mac/uname" && chmod 755 "$room/mac/uname"
    PATH=$room/mac:$PATH run ./w4 check $cart
    ended 1 'the program is for Linux on x86-64 and on ARM with 64 bits, and this is Darwin arm64'
}

several_at_once() {
    checkout
    for k in 1 2 3 4 5 6 7 8; do
        ./w4 check $cart >"out$k" 2>&1 &
    done
    wait
    [ "$(cat out?)" = "$(printf 'ok\n%.0s' 1 2 3 4 5 6 7 8)" ] && [ "$(echo release/stamp*)" = release/stamp ]
}

# A checkout that can't be written to, as a user who isn't root.
runs_read_only() {
    checkout
    : >out && : >err && chmod 666 out err
    run setpriv --reuid 65534 --regid 65534 --clear-groups ./w4 check $cart
    is_silent && [ "$(cat out)" = ok ] && [ ! -e release/stamp ]
}

# The gate's comparison with a program that is built: the same bytes; one changed byte, with the sums of before and
# with sums that fit; another kit.
compares() {
    checkout
    mkdir crates/w4_program/out && cp release/w4 crates/w4_program/out/w4_program
    stand_in "$(kit)"
    run with_rt release/compare
    ended 0 && [ "$(tail -n 1 out)" = '4 passed, 0 failed' ] || return 1
    change_byte release/w4
    run with_rt release/compare
    ended 1 && [ "$(tail -n 1 out)" = '2 passed, 2 failed' ] && grep -q 'release/renew' out || return 1
    (cd release && sha256sum w4 >SHA256SUMS)
    run with_rt release/compare
    ended 1 && [ "$(tail -n 1 out)" = '3 passed, 1 failed' ] && grep -q "hasn't the bytes" out || return 1
    stand_in 'another kit'
    run with_rt release/compare
    ended 0 && [ "$(tail -n 1 out)" = '3 passed, 0 failed' ] && grep -q '^not compared: .*another kit' out
}

renews() {
    stand_in "$(kit)"
    echo >>crates/w4_program/src/run.rt
    run with_rt release/renew
    ended 1 'run.rt has changed since' || return 1
    run with_rt release/compare
    ended 1 && grep -q 'the sources have another sum' out || return 1
    touch crates/w4_program/out/w4_program
    run with_rt release/renew
    ended 0 || return 1
    run with_rt release/compare
    ended 0 && [ "$(tail -n 1 out)" = '4 passed, 0 failed' ] || return 1
    run ./w4 check $cart
    is_silent && [ "$(cat out)" = ok ]
}

try_shipped() {
    try "README's first command gives the right bytes within a second" first_command
    try "a second start gives them too" edits_right ./w4
    try "--help, -h and help show each command of README" helps
    try "--version tells version, kit, sum of the sources and of the program" tells_version
    try "after a usage error the launcher says what the command takes" hints
    try "the program takes the launcher's place" becomes_the_program
    try "newer times alone change nothing" runs_with_newer_times
    try "each changed source is told" tells_changes
    try "changed code is told at the next start" tells_code_at_once
    try "changed sources are built, and run from then on" builds_changes
    try "a damaged program is told" refuses_damage
    try "another machine is told" refuses_another_machine
    try "several starts at once do no harm" several_at_once
    if [ "$(id -u)" = 0 ] && command -v setpriv >/dev/null; then
        try "a checkout that can't be written to runs" runs_read_only
    else
        echo "not tried: a checkout that can't be written to, which wants root and setpriv"
    fi
    try "a changed byte of release/w4 fails the comparison" compares
    try "release/renew puts the built program there" renews
}
