"""Tests of panes whose orders are late or refused: no old number is shown, and the others go on."""
from recordings import RIGHT, frame, garden_frames, image
from test_edits import turn_keys
from test_parts import HOPS, make_branch, texts_of_places, wait_for_stored_watch

VALUE = "document.querySelector('#watch-table td.number')"
PLACES = {60: "0", 61: "1", 120: "1", 121: "2"}  # hops of the garden's recording
REFUSED = {  # orders of these words that the program refuses, as the recording has no such place
    "page": "page 36001", "watch": "watch 0 1 36001 36001", "tones": "tones 36001 36001",
    "units": "units 36001 36001", "traces": "traces 36001 36001", "state": "state 36001",
    "film": "film 36001 36001 1",
}


def refuse(page, *words):
    """From now on the program refuses orders of these words alone."""
    page.script("""
        const [lines] = arguments, { connection } = studio.session;
        window.ask ??= connection.ask.bind(connection);
        connection.ask = (line, options) => ask(lines[line.split(" ")[0]] || line, options)""",
                {word: REFUSED[word] for word in words})


def hold(page, *words):
    """From now on answers of orders of these words alone are held; the next call lets go what came."""
    page.script("""
        const [words] = arguments, { connection } = studio.session;
        window.ask ??= connection.ask.bind(connection);
        if (window.letGo) letGo();
        const gate = new Promise((resolve) => { window.letGo = resolve; });
        connection.ask = async (line, options) => {
            const answer = await ask(line, options);
            if (words.includes(line.split(" ")[0])) await gate;
            return answer; }""", words)


def watch_hops(page):
    page.script("studio.watches.add(arguments[0], 4, 'hops')", HOPS)


def test_a_watch_shows_no_number_of_another_place(studio, page):
    watch_hops(page)
    page.go_to(60)
    page.wait(f"{VALUE}.textContent === '0'")
    hold(page, "page", "watch")
    page.go_to(121)
    assert page.value(f"[{VALUE}.textContent, {VALUE}.title]") == ["…", "not known yet at place 121"]
    hold(page)
    page.wait(f"{VALUE}.textContent === '2'")
    assert page.value(f"{VALUE}.title") == ""
    hold(page, "show", "page", "watch")
    page.script("""
        studio.selection.moveTo(61, false);
        window.early = document.querySelector('#watch-table td.number').textContent""")
    assert page.value("early") in ("…", "1")  # the value of place 61 may be known of the plot
    hold(page)


def test_a_watch_shows_no_number_of_before_an_edit(studio, page):
    watch_hops(page)
    page.go_to(121)
    page.wait(f"{VALUE}.textContent === '2'")
    hold(page, "page", "watch")
    page.press_at([page.cell(60, "1"), page.cell(63, "1")])  # without the first hop
    page.wait_for_picture()
    assert page.image() == image(garden_frames()[:60] + [frame(RIGHT)] * 4 + garden_frames()[64:], 121)
    assert page.value(f"{VALUE}.textContent") == "…"
    hold(page)
    page.wait(f"{VALUE}.textContent === '1'")


def test_a_watch_keeps_up_while_playing(studio, page):
    """Each number that is shown is the one of its place; on a busy machine some places have none."""
    watch_hops(page)
    page.go_to(30)
    page.wait(f"{VALUE}.textContent === '0'")
    page.script("""
        const cell = document.querySelector('#watch-table td.number');
        window.seen = [];
        studio.player.addEventListener("place", () => seen.push([studio.player.place, cell.textContent]))""")
    page.keys("space")
    page.wait("studio.player.place >= 150")
    page.keys("escape")
    hops = {place: "0" if place <= 60 else "1" if place <= 120 else "2" for place in range(241)}
    numbers = [(place, text) for place, text in page.value("seen") if text != "…"]
    assert numbers == [(place, hops[place]) for place, _ in numbers]
    assert len(numbers) > 0.3 * len(page.value("seen")) and {text for _, text in numbers} >= {"0", "1"}


def test_a_watch_names_the_place_of_its_number_while_recording(studio, page):
    watch_hops(page)
    page.go_to(30)
    page.wait(f"{VALUE}.textContent === '0'")
    page.script("""
        const cell = document.querySelector('#watch-table td.number'), { recorder, player } = studio;
        window.seen = [];
        const look = () => {
            if (recorder.isRecording) seen.push([player.place, cell.textContent]);
            requestAnimationFrame(look); };
        look()""")
    page.keys("r")
    page.wait("studio.player.place >= 45")
    turn_keys(page, "keydown", ["KeyX"])
    page.wait("studio.player.place >= 100")
    page.keys("escape")
    page.wait_for_picture()
    hops = page.answer("watch 8472 4 0 240").split()[2:]
    assert hops[30] == "0" and hops[100] != "0"
    told = [(place, text) for place, text in page.value("seen") if text != "…"]
    for place, text in told:
        number, at = text.removeprefix("… ").split(" at ") if " at " in text else (text, place)
        assert number == hops[int(at)] and int(at) <= place, (place, text)
    assert any(" at " in text for _, text in told)


def test_a_watch_is_asked_for_again_after_a_refusal(studio, page):
    watch_hops(page)
    page.go_to(60)
    page.wait(f"{VALUE}.textContent === '0'")
    refuse(page, "page", "watch")
    page.script("studio.selection.moveTo(121, false)")
    page.wait("studio.player.shown === 121")
    assert page.value(f"{VALUE}.textContent") == "…"
    page.wait("document.querySelector('#watch-pane .refusal').textContent === 'page: no frame'")
    refuse(page)
    page.wait(f"{VALUE}.textContent === '2'")
    page.wait("document.querySelector('#watch-pane .refusal').hidden")


def test_one_refused_watch_leaves_the_others(studio, page):
    page.script("""
        const { connection } = studio.session, ask = connection.ask.bind(connection);
        const isRefused = (line) => line.startsWith("watch 160 ");
        connection.ask = (line, options) => ask(isRefused(line) ? "watch 0 1 36001 36001" : line, options);
        studio.watches.add(160, 1, "refused")""")
    watch_hops(page)
    page.go_to(121)
    page.wait("[2, 60, 121].every((place) => studio.watches.list[1].values.has(place))")
    page.wait("document.querySelector('#watch-pane .refusal').textContent === 'watch: no frame'")
    assert page.value("[...studio.watches.list[0].values.keys()]") == [0, 121]


def open_panes(page):
    page.script("for (const pane of document.querySelectorAll('#panes details')) pane.open = true")


def check_panes(page, place, traces, but=None):
    """What the panes show at a place, but for one of them."""
    texts = {
        "page": (f"{VALUE}.textContent", PLACES[place]),
        "traces": ("document.getElementById('traces').textContent", traces[place]),
        "state": ("document.getElementById('state-line').textContent",
                  f"state {place} of 240 halt running disk 0"),
        "disk": ("document.getElementById('disk').textContent", "the disk is empty"),
    }
    for name, (expression, text) in texts.items():
        if name != but:
            page.wait(f"{expression} === {text!r}", patience=30)


def trace_of_place(text, place):
    lines = [line.removeprefix("trace ") for line in text.splitlines() if line.startswith("trace ")]
    return "\n".join(lines) or f"nothing was traced in the frame that led to place {place}"


def test_a_refused_order_leaves_the_other_panes(studio, page):
    traces = [trace_of_place(text, place) for place, text in enumerate(texts_of_places("trace"))]
    watch_hops(page)
    open_panes(page)
    tells = {
        "page": "document.querySelector('#hexadecimal-pane .refusal').textContent === 'page: no frame'"
                " && document.getElementById('hexadecimal').textContent === ''",
        "traces": "document.querySelector('#traces-pane .refusal').textContent === 'traces: no frame'"
                  " && document.getElementById('traces').textContent === ''",
        "state": "document.getElementById('state-line').textContent === 'state: no frame'",
    }
    for (word, tell), place in zip(tells.items(), PLACES):
        refuse(page, word)
        page.script("studio.selection.moveTo(arguments[0], false)", place)
        check_panes(page, place, traces, but=word)
        page.wait(tell)
        refuse(page)
        check_panes(page, place, traces)


def test_refused_facts_are_asked_for_again(studio, page):
    """Tones that are refused leave the units, and units the tones; each comes as soon as it can."""
    page.wait("studio.facts.of(10) && studio.session.trusted === 240")
    fact = "(studio.facts.of(10) || {})"
    for word, there, gone in [("tones", f"{fact}.units > 0", f"{fact}.schedule"),
                              ("units", f"{fact}.schedule", f"{fact}.units")]:
        refuse(page, word)
        page.script("studio.session.change('', [{ kind: 'set', at: 0, input: studio.session.inputs[1] }])")
        page.wait(f"{there} && {gone} === null")
        text = "document.querySelector('#units-pane > .refusal').textContent"
        page.wait(f"{text}.startsWith('frames 0 to ') && {text}.endsWith(': {word}: no frame')")
        refuse(page)
        page.wait(f"{fact}.units > 0 && {fact}.schedule")
        page.wait("document.querySelector('#units-pane > .refusal').hidden")


def test_a_refused_film_stops_playing_and_it_plays_again(studio, page):
    refuse(page, "film")
    page.keys("space")
    page.wait("!studio.player.isPlaying && !document.getElementById('fault').hidden", patience=30)
    assert page.value("document.getElementById('fault-text').textContent") == (
        "playing stopped at place 0: film: no frame; play again to try again")
    refuse(page)
    page.keys("space")
    page.wait("studio.player.place >= 20")
    page.keys("escape")
    page.wait_for_picture()
    assert page.image() == image(garden_frames(), page.value("studio.player.place"))


def test_a_search_goes_on_after_a_refusal(studio, page):
    page.keys("/")
    page.script("document.getElementById('search-width').value = 4")
    page.go_to(60)
    press = "document.querySelector('[data-search={}]').click()"
    text = "document.getElementById('search-text').textContent"
    page.script("""
        const { connection } = studio.session, ask = connection.ask.bind(connection);
        connection.ask = (line, options) => ask(line.startsWith("start") ? "start 4 36001" : line, options);
        window.mend = () => { connection.ask = ask; }""")
    page.script(press.format("start"))
    page.wait(f"{text} === \"the search didn't go on (start: no frame); start it again\"", patience=30)
    page.script("mend()")
    page.script(press.format("start"))
    page.wait(f"{text}.includes('begun at place 60')")
    page.go_to(61)
    page.script(press.format("more"))
    page.wait(f"{text}.includes('more at place 61')")


def fail_fetches(page, answer):
    """Who runs the program answers nothing, or what the page's code says, until `mend()`."""
    page.script(f"""
        const {{ host }} = studio.session.connection, request = host.request.bind(host);
        host.request = async () => {{ {answer} }};
        window.mend = () => {{ host.request = request; }}""")


def silence(page):
    """What is told where nothing is answered."""
    return page.value("studio.session.connection.host.name") + " didn't answer"


def fault_after(page, key):
    page.script("document.getElementById('fault').hidden = true")
    page.keys(key)
    page.wait("!document.getElementById('fault').hidden", patience=30)
    return page.value("document.getElementById('fault-text').textContent")


def test_a_failed_fetch_names_what_failed_and_what_to_do(studio, page):
    fail_fetches(page, "throw new TypeError('Failed to fetch')")
    rows = "select other rows, or fewer, and try again"
    silent = silence(page)
    assert fault_after(page, "shift+f") == f"no film was made: {silent}; {rows}"
    for key in ("shift+w", "shift+h"):
        assert fault_after(page, key) == f"no sound was made: {silent}; {rows}"
    assert fault_after(page, "shift+s") == f"no copy was made: {silent}; try again"
    page.script("mend()")
    fail_fetches(page, "return new Response(\"those places aren't there\", { status: 409 })")
    assert fault_after(page, "shift+f") == f"no film was made: those places aren't there; {rows}"
    page.script("mend()")
    page.keys("shift+s")
    page.wait("document.getElementById('made').download === 'game.copy.w4rec'")


def test_a_failed_fetch_leaves_branches_usable(studio, page):
    open_panes(page)
    make_branch(page, "first")
    compared = "document.getElementById('compared').textContent"
    silent = silence(page)
    fail_fetches(page, "throw new TypeError('Failed to fetch')")
    make = ("document.getElementById('branch-name').value = 'one';"
            "document.querySelector('#branch-form button').click()")
    page.script(make)
    page.wait(f"{compared} === \"no branch was made: {silent}; try again, or under another name\"", patience=30)
    buttons = "[...document.querySelectorAll('#branch-table button')]"
    press = buttons + ".find((one) => one.textContent === '{}').click()"
    page.script(press.format("Compare"))
    page.wait(f"{compared} === \"nothing was compared: {silent}; try again, or choose another recording\"")
    page.script(press.format("Go to"))
    page.wait(f"{compared}.startsWith(\"the branch wasn't read: {silent}; \")")
    page.script("mend()")
    page.script(make)
    page.wait("[...document.querySelectorAll('#branch-table td')].some((cell) => cell.textContent === 'one')")


def open_with_watches(page, address, text):
    """Opens the page where the server answers with this text for the stored watches."""
    source = """{
        const fetch = window.fetch;
        window.fetch = async (name, options = {}) => (
            name === "watches" && !options.method ? new Response(%r) : fetch(name, options)); }"""
    run = page.driver.execute_cdp_cmd
    added = run("Page.addScriptToEvaluateOnNewDocument", {"source": source % text})
    try:
        page.open(address)
    finally:
        run("Page.removeScriptToEvaluateOnNewDocument", added)
    return page.value("studio.watches.list.map(({ address, width, name }) => [address, width, name])")


def test_stored_watches_can_t_stop_the_page(studio, page):
    note = "document.getElementById('note').textContent"
    for text in ('[{"address": 160, "wid', "null", '{"version": 2}', "7"):
        assert open_with_watches(page, studio.address, text) == []
        assert page.value(f"{note}.includes(\"the stored watches can't be read\")"), text
    good = '{"address": 65532, "width": 4, "name": "last"}'
    others = ['null', '3', '{"address": 65533, "width": 4, "name": "past"}',
              '{"address": -1, "width": 1, "name": ""}', '{"address": "160", "width": 1, "name": "text"}',
              '{"address": 0, "width": 3, "name": "three"}']
    assert open_with_watches(page, studio.address, f"[{', '.join([*others, good])}]") == [[65532, 4, "last"]]
    assert page.value(f"{note}.includes(\"6 of 7 stored watches can't be read\")")
    page.go_to(60)
    assert page.image() == image(garden_frames(), 60)


def test_a_broken_file_of_watches_can_t_stop_the_page(studio, page):
    watch_hops(page)
    wait_for_stored_watch(studio, "hops")
    stored = studio.recording.with_name("game.w4rec.studio") / "watches.json"
    stored.write_bytes(stored.read_bytes()[:20])
    page.open(studio.address)
    assert page.value("studio.watches.list.length") == 0
    watch_hops(page)
    wait_for_stored_watch(studio, "hops")


# The page has no file of watches; what stands in their place there, test_published.py breaks.
SERVER_ONLY = (test_stored_watches_can_t_stop_the_page, test_a_broken_file_of_watches_can_t_stop_the_page)
