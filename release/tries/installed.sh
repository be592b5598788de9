# shellcheck shell=sh disable=SC2154
# ./install, and what it has put there.

# What ./install has put there works when the checkout is gone.
installs() {
    prefix="$room/a folder"
    run ./install "$prefix"
    ended 0 || return 1
    mkdir "$room/away" && mv crates w4 release studio cases "$room/away" || return 1
    edits_right "$prefix/bin/w4" || return 1
    mv "$room"/away/* . && rmdir "$room/away"
    run "$prefix/bin/w4" --version && is_silent && [ "$(wc -l <out)" = 4 ] || return 1
    run "$prefix/bin/w4" help && is_silent && grep -qx 'usage: w4 COMMAND, one of' out || return 1
    run "$prefix/bin/w4" && ended 2 'w4: w4 --help shows the commands' || return 1
    run "$prefix/bin/w4" check && ended 2 'w4: it is w4 check CART; w4 help check says more'
}

# Header, bindings, build scripts, carts with recordings, client and studio are there; tests of the studio aren't. The
# examples that help shows run where nothing else is.
installs_what_carts_need() {
    share=$prefix/share/w4
    for file in c/wasm4.h c/apples.c rust/wasm4.rs rust/apples.rs garden/game.w4rec garden/cart.wasm serve/client.py; do
        cmp "$share/examples/$file" "examples/$file" || return 1
    done
    cmp "$share/font.bin" examples/first/font.bin && [ -x "$share/examples/c/build" ] &&
        [ -x "$share/examples/rust/build" ] && [ -x "$share/studio/run" ] && [ ! -x "$share/examples/c/apples.c" ] || return 1
    run "$prefix/bin/w4" frames "$share/examples/apples/cart.wasm" "$share/examples/apples/game.w4rec" "$share/font.bin" 9 9
    is_silent && [ "$(wc -c <out)" = 76815 ] || return 1
    run "$share/studio/publish" --run "$share/examples/garden/cart.wasm" "$share/examples/garden/game.w4rec" run.html &&
        ended 0 && [ "$(wc -c <run.html)" -gt 300000 ] || return 1
    ! find "$share" -name 'test*' -o -name 'measure*' -o -name browser.py -o -name '*.pyc' | grep . || return 1
    mkdir -p "$room/empty" && cd "$room/empty" || return 1
    PATH=$prefix/bin:$PATH runs_the_examples
    result=$?
    cd "$room/at" && return "$result"
}

# Each example of help, of the w4 on the PATH.
runs_the_examples() {
    for command in check blank edit serve frames disk compare inputs ram batch net; do
        run w4 help "$command"
        example=$(sed '1,/^example:/d' out)
        run sh -c "$example"
        is_silent || { [ "$command" = compare ] && ended 1 && [ ! -s err ]; } || return 1
    done
}

# A studio by the launcher $1 opens its page with all that it loads, and saves at the end; nothing of Python is left.
opens_a_studio() {
    cp examples/garden/game.w4rec edited-here.w4rec
    "$1" studio --no-browser examples/garden/cart.wasm edited-here.w4rec >out 2>err </dev/null &
    studio=$!
    python3 - out >fetched 2>&1 <<'END'
import re, sys, time, urllib.request
end = time.monotonic() + 60
while not (address := open(sys.argv[1]).read().strip()) and time.monotonic() < end:
    time.sleep(0.05)
page = urllib.request.urlopen(address).read().decode()
names = re.findall(r'(?:src|href)="([^":]+)"', page)
assert len(names) >= 3, names
for name in names:
    assert urllib.request.urlopen(address + name).status == 200, name
print("all is there")
END
    kill -TERM $studio
    wait $studio
    status=$?
    ended 0 && grep -qx 'all is there' fetched && [ ! -e edited-here.w4rec.studio ] || return 1
    [ "$1" = ./w4 ] || [ -z "$(find "$prefix/share" -name __pycache__)" ] || return 1
    rm edited-here.w4rec
}

opens_the_studio() {
    opens_a_studio ./w4 && opens_a_studio "$prefix/bin/w4" || return 1
    run "$prefix/bin/w4" studio --help
    is_silent && [ "$(head -n 1 out)" = 'usage: w4 studio CART [REC] [FONT]' ]
}

# Another name, beside a file that isn't of this tool; an installation over one; and nothing is left at the end.
installs_and_removes() {
    run ./install "$prefix" && ended 0 || return 1
    run ./install --remove "$prefix" && ended 0 && [ ! -e "$prefix" ] || return 1
    mkdir -p "$prefix/bin" && echo theirs >"$prefix/bin/w4"
    run ./install "$prefix"
    ended 1 '--name w4p' && [ "$(find "$prefix" -type f)" = "$prefix/bin/w4" ] || return 1
    run ./install --name w4p "$prefix" && ended 0 || return 1
    run "$prefix/bin/w4p" && ended 2 'w4: w4p --help shows the commands' || return 1
    run ./install --name w4p --remove "$prefix"
    ended 0 && [ "$(find "$prefix")" = "$(printf '%s\n' "$prefix" "$prefix/bin" "$prefix/bin/w4")" ] && rm -r "$prefix"
}

# An ./install that is killed with SIGKILL at its call $1 of mv, which gives a file that is whole its name.
kill_install() {
    echo 0 >calls
    make_tool mv <<END
calls=\$((\$(cat "$PWD/calls") + 1)); echo "\$calls" >"$PWD/calls"
[ "\$calls" != "$1" ] || kill -KILL 0
exec /usr/bin/mv "\$@"
END
    run with_tools setsid -w ./install "$prefix"
    rm "$room/tools/mv"
    [ "$status" -gt 128 ]
}

# Nothing is left of it after --remove, nor after an ./install that goes on from there and --remove.
clears_killed_installs() {
    for call in 1 2 3 13 30 60; do
        kill_install "$call" && run ./install --remove "$prefix" && ended 0 && [ ! -e "$prefix" ] || return 1
        kill_install "$call" && run ./install "$prefix" && ended 0 && edits_right "$prefix/bin/w4" || return 1
        [ -z "$(find "$prefix" -name '*new*')" ] || return 1
        run ./install --remove "$prefix" && ended 0 && [ ! -e "$prefix" ] || return 1
    done
}

# What an older version has put there and this one hasn't goes with an installation over it; so does what Python kept.
clears_older_versions() {
    run ./install "$prefix" && ended 0 || return 1
    echo old >"$prefix/share/w4/studio/gone.py" && echo file share/w4/studio/gone.py >>"$prefix/lib/w4/installed"
    run ./install "$prefix" && ended 0 && [ ! -e "$prefix/share/w4/studio/gone.py" ] || return 1
    mkdir "$prefix/share/w4/studio/__pycache__" && touch "$prefix/share/w4/studio/__pycache__/services.cpython-311.pyc"
    run ./install --remove "$prefix" && ended 0 && [ ! -e "$prefix" ]
}

# A list that names what isn't ./install's removes nothing, not even what is.
refuses_forged_lists() {
    mkdir -p "$prefix-beside/home" && echo precious >"$prefix-beside/precious"
    for line in 'file ../a folder-beside/precious' "file $prefix-beside/precious" 'folder ../a folder-beside/home' \
        'file share/w4/../../../a folder-beside/precious' 'file share/w4/outside/precious' 'file bin/theirs' \
        'folder share/w4/outside/home' 'remove all'; do
        run ./install "$prefix" && ended 0 || return 1
        echo theirs >"$prefix/bin/theirs" && ln -sfn "$prefix-beside" "$prefix/share/w4/outside"
        cp "$prefix/lib/w4/installed" kept && echo "$line" >>"$prefix/lib/w4/installed"
        run ./install --remove "$prefix"
        ended 1 "$line" "$prefix/lib/w4/installed" && [ -x "$prefix/bin/w4" ] && [ -e "$prefix/bin/theirs" ] || return 1
        [ -e "$prefix-beside/precious" ] && [ -d "$prefix-beside/home" ] || return 1
        rm "$prefix/share/w4/outside" "$prefix/bin/theirs" && cp kept "$prefix/lib/w4/installed"
        run ./install --remove "$prefix" && ended 0 && [ ! -e "$prefix" ] || return 1
    done
}

# Links that stand where a file, a new file or a folder would: what they lead to stays as it is.
follows_no_links() {
    echo precious >"$prefix-beside/precious" && mkdir -p "$prefix/share/w4" "$prefix/lib/w4" || return 1
    for file in share/w4/font.bin.new lib/w4/installed.new lib/w4/README.md.new; do
        ln -s "$prefix-beside/precious" "$prefix/$file"
    done
    run ./install "$prefix" && ended 0 && [ "$(cat "$prefix-beside/precious")" = precious ] || return 1
    ln -sfn "$prefix-beside/precious" "$prefix/share/w4/font.bin"
    run ./install "$prefix" && ended 0 && [ "$(cat "$prefix-beside/precious")" = precious ] || return 1
    [ ! -L "$prefix/share/w4/font.bin" ] && cmp "$prefix/share/w4/font.bin" examples/first/font.bin || return 1
    run ./install --remove "$prefix" && ended 0 && rm -r "$prefix" || return 1
    mkdir -p "$prefix" "$prefix-beside/share" && ln -s "$prefix-beside/share" "$prefix/share"
    run ./install "$prefix"
    ended 1 "$prefix/share/" 'leads out of' && [ -z "$(ls "$prefix-beside/share")" ] && [ ! -e "$prefix/bin" ] &&
        rm -r "$prefix" "$prefix-beside"
}

# Each refusal says which file or word, and what to do.
refuses_with_words() {
    run ./install --nmae w4p "$prefix"
    ended 2 'there is no option --nmae' 'usage' || ended 2 'there is no option --nmae' './install [--name NAME] [PREFIX]' || return 1
    run ./install --name 'a b' "$prefix" && ended 1 "--name 'a b'" 'a name begins with a letter' || return 1
    run ./install --remove "$prefix" && ended 1 "$prefix/lib/w4/installed" 'as it was installed' || return 1
    run env -u HOME ./install && ended 1 "HOME isn't set" './install /usr/local' || return 1
    echo file >"$prefix"
    run ./install "$prefix" && ended 1 "$prefix/lib/w4/installed can't be written: name a folder" && rm "$prefix" || return 1
    run ./install "$prefix" && ended 0 && rm "$prefix/lib/w4/release/stamp" && mkfifo "$prefix/lib/w4/release/stamp" || return 1
    run timeout -k 1 20 "$prefix/bin/w4" check $cart
    ended 1 'lib/w4/release/stamp' './install' || return 1
    rm "$prefix/share/w4/studio/run" && run "$prefix/bin/w4" studio $cart
    ended 1 "$prefix/share/w4/studio/run" './install' && run ./install --remove "$prefix" && [ ! -e "$prefix" ]
}

# The manual has the forms of README's tables, the launcher's own too, and its statuses.
manual_has_all() {
    run release/manual w4p
    is_silent && mv out w4.1 || return 1
    sed -n '/^## The commands/,/^## /s/^| `\([a-z][^ `]*\)\([^`]*\)` .*/.BR "w4p \1" "\2"/p' README.md >rows
    echo '.BR "w4p studio" " CART [REC] [FONT]"' >wanted
    [ "$(grep -cxFf rows w4.1)" = "$(wc -l <rows)" ] && grep -qxFf wanted w4.1 && grep -q '^.SS Exit status' w4.1
}

manual_is_clean() {
    release/manual w4 >w4.1 || return 1
    run "$@" w4.1
    ended 0 && ! grep -i 'warning\|error' out err
}

# Tries the manual with a tool, where it is there.
try_manual() {
    if command -v "$1" >/dev/null; then
        try "the manual has no warnings of $1" manual_is_clean "$@"
    else
        echo "not tried: the manual with $1, which isn't there"
    fi
}

try_installed() {
    small_checkout
    try "an installed w4 stands alone" installs
    try "what carts need is installed, and the examples of help run there" installs_what_carts_need
    if command -v python3 >/dev/null; then
        try "the studio opens, from a checkout and installed" opens_the_studio
    else
        echo "not tried: the studio of an installed w4, which wants python3"
    fi
    try "other files are left alone, and nothing is left after --remove" installs_and_removes
    try "nothing is left of an installation that was killed" clears_killed_installs
    try "nothing is left of an older version" clears_older_versions
    try "a list that leads elsewhere removes nothing" refuses_forged_lists
    try "links that stand in the way are not followed" follows_no_links
    try "a refusal says which file, and what to do" refuses_with_words
    try "the manual has every command" manual_has_all
    try_manual mandoc -T lint -W warning
    try_manual groff -man -Tutf8 -ww -z
}
