"""Tests of what the page shows beside the roll: playing, memory, sound, traces, units and branches."""
import base64
import hashlib
import io
import re
import shutil
import struct

import moving_png
from browser import TOP, Missing, Page, wait_until
from recordings import CART, RIGHT, frame, garden_frames, image, of_frames, recording

HOPS = 8472  # where the garden counts hops, in four bytes
PLACE_SOUND, IMAGE = 2_940, 76_815  # bytes of a place


def test_plays_no_faster_than_a_second_in_a_second(studio, page):
    """By the times of the display's pictures, since a page that comes late catches up."""
    page.script("""
        const { player } = studio, tick = player.tick.bind(player);
        window.ticks = [];
        player.tick = (now) => { tick(now); ticks.push([player.place, now]); }""")
    page.keys("space")
    page.wait("studio.player.place >= 100")
    page.keys("escape")  # which pauses, also where the end has come meanwhile
    ticks = page.value("ticks")
    first, start = ticks[0]
    last, end = next(tick for tick in ticks if tick[0] >= 100)
    assert 1000 * (last - first) / (end - start) < 66
    page.wait_for_picture()
    assert page.image() == image(garden_frames(), page.value("studio.player.place"))


def test_plays_to_the_end_as_fast_as_it_goes(studio, page):
    page.script("const field = document.getElementById('speed');"
                "field.value = 'Infinity'; field.dispatchEvent(new Event('change'))")
    page.keys("space")
    page.wait("!studio.player.isPlaying")
    page.wait_for_picture()
    assert page.value("studio.player.place") == 240
    assert page.image() == image(garden_frames(), 240)


def test_a_place_is_typed_and_dragged(studio, page):
    page.keys("g", "7", "0", "enter")
    page.wait("studio.player.place === 70")
    assert page.value("document.getElementById('spoken').textContent") == "frame 70: right"
    page.script("const bar = document.getElementById('bar'); bar.value = 121;"
                "bar.dispatchEvent(new Event('input'))")
    page.wait_for_picture()
    assert page.image() == image(garden_frames(), 121)


def test_kept_places_are_true_then_in_doubt_then_true(studio, page):
    page.wait("studio.session.kept.length === 5 && studio.session.trusted === 240")
    assert page.value("studio.session.kept") == [0, 60, 120, 180, 240]
    page.go_to(130)
    page.cell(110, "frame")
    colors = page.script("""
        const { painter } = studio.roll, { scroller } = studio.roll, { session } = studio;
        const color = (row) => {
            painter.paint(scroller.scrollTop);
            const y = 20 + 18 * row - scroller.scrollTop + 9;
            const pixel = painter.context.getImageData(10 * painter.scale, y * painter.scale, 1, 1).data;
            return `rgb(${pixel[0]}, ${pixel[1]}, ${pixel[2]})`;
        };
        const before = color(120);
        session.change("", [{ kind: "set", at: 110, input: { ...session.inputs[110], reset: true } }]);
        return [before, color(120), session.trusted, painter.colors["--kept"], painter.colors["--doubt"]]""")
    assert colors == [colors[3], colors[4], 110, "rgb(168, 222, 181)", "rgb(207, 207, 207)"]
    page.wait("studio.session.trusted === 240")


def test_a_far_place_is_approached_and_left(studio, page):
    frames = [frame(RIGHT if at % 100 < 50 else 16) for at in range(3000)]
    long = studio.recording.with_name("long.w4rec")
    long.write_bytes(recording(frames))
    with studio.other(CART, long) as other:
        page.open(other.address)
        page.script("""
            studio.keeper.isPaused = () => true;
            const { connection } = studio.session, ask = connection.ask.bind(connection);
            window.asked = [];
            connection.ask = (line, options) => { window.asked.push(line); return ask(line, options); };
            // An edit of the first frame leaves all behind it in doubt, which the keeper may have been at.
            studio.session.change("", [{ kind: "set", at: 0, input: studio.session.inputs[0] }]);
            studio.selection.moveTo(2900, false);
            studio.selection.moveTo(3000, false);""")
        page.wait("studio.player.shown === 3000")
        assert page.image() == image(frames, 3000)
        shown = [line for line in page.value("window.asked") if line.startswith("show")]
        assert shown == ["show 3000"]
        page.script("studio.session.change('', [{ kind: 'delete', at: 0 }]);"
                    "studio.selection.moveTo(5, false)")
        page.wait_for_picture()
        assert page.image() == image(frames[1:], 5)
        assert not [line for line in page.value("window.asked") if line == "show 2999"]
        page.driver.get("about:blank")


def test_playing_keeps_places_behind_it(studio, page):
    page.script("studio.keeper.isPaused = () => true")
    page.wait("!studio.session.connection.waiting.length")
    page.keys("home", "space")
    page.wait("!studio.player.isPlaying")
    kept = [int(place) for place in page.answer("state 0").split(" kept ")[1].split()]
    assert all(later - earlier <= 90 for earlier, later in zip(kept, kept[1:])), kept


def test_a_place_is_kept_and_dropped_by_hand(studio, page):
    page.wait("studio.session.kept.length === 5 && studio.session.trusted === 240")
    page.go_to(70)
    for kept in ([0, 60, 70, 120, 180, 240], [0, 60, 120, 180, 240]):
        page.keys("k")
        page.wait(f"JSON.stringify(studio.session.kept) === '{kept}'.replaceAll(' ', '')")
        assert page.answer("state 0").split(" kept ")[1].split() == [str(place) for place in kept]
    page.go_to(120)
    page.keys("k")
    page.wait("studio.session.kept.length === 4")
    assert page.answer("state 0").endswith(" kept 0 60 180 240\n")


def test_an_idle_page_asks_nothing(studio, page):
    page.script("for (const pane of document.querySelectorAll('details')) pane.open = true;"
                "studio.watches.add(arguments[0], 4, 'hops')", HOPS)
    page.wait("studio.session.kept.length === 5 && studio.session.trusted === 240")
    asked = page.driver.execute_async_script("""
        const done = arguments[arguments.length - 1];
        const { connection } = studio.session, ask = connection.ask.bind(connection);
        let asked = [];
        connection.ask = (line, options) => { asked.push(line); return ask(line, options); };
        const rest = () => new Promise((resolve) => setTimeout(() => requestAnimationFrame(resolve), 100));
        const isQuiet = async (rests) => {
            asked = [];
            for (let number = 0; number < rests; number += 1) await rest();
            return !asked.length && !connection.waiting.length;
        };
        (async () => {
            let isIdle = false;
            while (!isIdle) isIdle = await isQuiet(10);
            await isQuiet(20);
            done(asked);
        })()""")
    assert asked == []


def test_search_begins_with_bytes_outside_the_screen(studio, page):
    """The counter of hops is among the addresses whose byte is 1; the screen's are left out."""
    page.go_to(60)
    page.keys("/", "enter")
    page.wait("document.getElementById('search-text').textContent.includes('begun at place 60')")
    page.script("document.activeElement.blur()")
    page.go_to(61)
    page.script("document.getElementById('is-value').value = 1;"
                "document.querySelector('#is-form button').click()")
    page.wait("document.getElementById('search-text').textContent.endsWith('(is 1 at place 61)')")
    pages = [memory_of_place(page, place) for place in (60, 61)]
    found = [at for at in range(65536) if pages[1][at] == 1]
    outside = [at for at in found if not 160 <= at < 6560]
    cells = "[...document.querySelectorAll('#search-table td:first-child')]"
    shown = f"{cells}.map((cell) => Number(cell.textContent))"
    assert HOPS in outside and pages[0][HOPS] == 0 and page.value(shown) == outside[:200]
    page.script("document.getElementById('search-screen').click()")
    assert page.value(shown) == found[:200]


def memory_of_place(page, place):
    return page.driver.execute_async_script("""
        const [place, done] = arguments;
        studio.pages.at(place).then((bytes) => done(Array.from(bytes)))""", place)


def test_search_finds_the_hop_counter(studio, page):
    page.keys("/")
    page.script("document.getElementById('search-width').value = 4;"
                "document.getElementById('search-screen').click()")
    for place, button in [(60, "start"), (61, "more"), (110, "same"), (121, "more"), (240, "same")]:
        page.go_to(place)
        page.script(f"document.querySelector('[data-search={button}]').click()")
        page.wait(f"document.getElementById('search-text').textContent.includes('at place {place})')")
    assert page.value("document.querySelectorAll('#search-table tbody tr').length") == 8
    page.script("document.getElementById('is-value').value = 2;"
                "document.querySelector('#is-form button').click()")
    page.wait("document.querySelectorAll('#search-table tbody tr').length === 1")
    assert page.value("document.querySelector('#search-table td').textContent") == str(HOPS)
    page.script("document.querySelector('#search-table button').click()")
    page.wait("document.querySelector('#watch-table td.number').textContent === '2'")
    page.script("document.querySelector('#watch-table input').select();"
                "document.querySelector('#watch-table input').focus()")
    page.keys(*"hops", "enter")
    page.wait("studio.watches.list[0].name === 'hops'")
    wait_for_stored_watch(studio, "hops")
    page.open(studio.address)
    watch = "(({ address, width, name }) => [address, width, name])(studio.watches.list[0])"
    assert page.value(watch) == [HOPS, 4, "hops"]


def wait_for_stored_watch(studio, name):
    wait_until(lambda: name in studio.stored_watches(), f"the watch {name} is stored")


def test_watches_show_the_value_of_the_place(studio, page):
    page.script("studio.watches.add(arguments[0], 4, 'hops')", HOPS)
    for place, hops in [(60, 0), (61, 1), (120, 1), (121, 2)]:
        page.go_to(place)
        page.wait(f"document.querySelector('#watch-table td.number').textContent === '{hops}'")
    wait_for_stored_watch(studio, "hops")
    page.open(studio.address)  # watches are stored beside the recording
    page.go_to(121)
    page.wait("studio.watches.list[0].values.size >= 120")
    values = page.value("Array.from({ length: 120 }, (_, at) => studio.watches.list[0].values.get(2 + at))")
    assert values == [0] * 59 + [1] * 60 + [2]
    page.press_at([page.cell(60, "1"), page.cell(63, "1")])  # without the first hop
    page.wait("studio.watches.list[0].values.get(121) === 1 && studio.watches.list[0].values.size >= 120")
    values = page.value("Array.from({ length: 120 }, (_, at) => studio.watches.list[0].values.get(2 + at))")
    assert values == [0] * 119 + [1]


def test_hexadecimal_marks_what_changed(studio, page):
    page.keys("h")
    page.script("document.getElementById('hexadecimal-address').value = '0x2110';"
                "document.querySelector('#hexadecimal-form button').click()")
    page.go_to(61)
    page.wait("document.getElementById('hexadecimal').textContent.startsWith('2110')")
    page.wait("document.querySelectorAll('#hexadecimal mark').length > 0")
    first_row = "document.getElementById('hexadecimal').textContent.split('\\n')[0]"
    bytes_shown = f"{first_row}.split('  ')[1].split(' ')[8]"
    page.wait(f"{bytes_shown} === '01'")
    page.go_to(62)
    page.wait("!Array.from(document.querySelectorAll('#hexadecimal mark')).some("
              "(mark) => mark.previousSibling.textContent.startsWith('2110'))")
    assert page.value(bytes_shown) == "01"


def texts_of_places(command, frames=None):
    """What a command writes for each place of a recording, the garden's where none is named."""
    return re.split(r"(?m)^(?=frame )", of_frames(command, frames or garden_frames()).decode())[1:]


def check_lanes(page, text):
    """The roll's sounds of frame 60 are those of the schedule text of place 61."""
    page.wait("studio.facts.of(60) && studio.facts.of(60).schedule")
    wanted = [line.split() for line in text.splitlines() if line.startswith("sound")]
    sounds = page.value("studio.facts.of(60).schedule.sounds")
    shown = [["sound", str(channel), str(sound["level"]), str(sound["frequency"])]
             for channel, sound in enumerate(sounds) if sound]
    assert wanted and shown == wanted


def test_lanes_have_the_schedule(studio, page):
    page.go_to(60)
    frames = garden_frames()
    before = texts_of_places("tones", frames)[61]
    check_lanes(page, before)
    page.click_cell(60, "1")
    after = texts_of_places("tones", frames[:60] + [frame(RIGHT)] + frames[61:])[61]
    assert before != after
    check_lanes(page, after)


def test_sound_is_heard_while_playing_and_cut_out_as_wav(studio, page):
    page.script("""
        const { player, sound } = studio;
        player.addEventListener("place", () => {
            if (player.place >= 30 && sound.start !== null) window.isHeard = true; })""")
    page.keys("m", "space")
    page.wait("window.isHeard && studio.sound.context.state === 'running'")
    page.keys("escape")
    data = page.made("wave", 61, 80)
    whole = of_frames("wave", garden_frames())
    samples = whole[44 + 61 * PLACE_SOUND:44 + 81 * PLACE_SOUND]
    assert data[44:] == samples and any(samples)
    assert data[:44] == (b"RIFF" + struct.pack("<I", len(samples) + 36) + whole[8:40]
                                + struct.pack("<I", len(samples)))


def test_sound_of_the_page_follows_the_program(studio, page):
    """A pulse that starts within a frame is the program's, sample by sample, once its level stands still."""
    samples = page.script("""
        const left = new Float32Array(735), right = new Float32Array(735);
        const text = "frame 1\\ntone 0 440 0 0 0 10 0 100 50 0 0 0\\nsound 0 50 440\\n";
        return import("./tones.js").then(({ Oscillators, parseSchedule }) => {
            new Oscillators().render(parseSchedule(text), left, right);
            return Array.from(left.slice(64)); });""")
    wanted = [4000 if 8 * (440 * tick % 44100) < 44100 else -4000 for tick in range(64, 735)]
    assert [round(32768 * sample) for sample in samples] == wanted


def test_traces_disk_and_state(studio, page):
    page.script("for (const name of ['traces', 'disk']) document.getElementById(`${name}-pane`).open = true")
    texts = texts_of_places("trace")
    place, line = next((place, text.split("trace ")[1].strip()) for place, text in enumerate(texts)
                       if "trace " in text and place)
    page.go_to(place)
    page.wait(f"document.getElementById('traces').textContent === {line!r}")
    page.wait("document.getElementById('disk').textContent === 'the disk is empty'")
    state = f"state {place} of 240 halt running disk 0"
    page.wait(f"document.getElementById('state-line').textContent === '{state}'")


def test_frames_near_the_budget_are_marked(studio, page):
    lines = page.answer("units 0 240").split("\n")
    most = max(int(line.split()[2]) for line in lines if line)
    low = studio.recording.with_name("low.w4rec")
    low.write_bytes(recording(garden_frames(), budget=most))
    with studio.other(CART, low) as other:
        page.open(other.address)
        units = [int(line.split()[2]) for line in page.answer("units 0 30").split("\n") if line]
        page.wait("studio.facts.of(29)")
        heavy = page.value("Array.from({ length: 30 }, (_, at) => studio.facts.isHeavy(at))")
        assert heavy == [10 * number > 9 * most for number in units]
        check_marks_of_units(page)
        page.driver.get("about:blank")


def test_a_trap_is_told_where_it_was(studio, page):
    cart = TOP / "cases/inputs/carts/pixels-then-a-trap.wasm"
    trapped = studio.recording.with_name("trapped.w4rec")
    trapped.write_bytes(recording([frame(0)] * 3, cart))
    with studio.other(cart, trapped) as other:
        page.open(other.address)
        page.go_to(3)
        page.wait("document.getElementById('heavy-frames').textContent === 'frame 0: trap'")
        page.wait("document.getElementById('units').textContent === 'frame 2: halted'")
        state = "state 3 of 3 halt trap memory disk 0"
        page.wait(f"document.getElementById('state-line').textContent === '{state}'")
        colors = page.value("['state-line', 'fault'].map((name) => document.getElementById(name))"
                            ".map((part) => getComputedStyle(part))"
                            ".map((style, at) => at ? style.backgroundColor : style.color)")
        assert colors[0] == colors[1]
        page.driver.get("about:blank")


def check_marks_of_units(page):
    """What counts as near the budget, for each kind of line."""
    marks = page.script("""
        const { facts } = studio, { budget } = facts;
        const nine = Math.floor(0.9 * budget);
        facts.isPaused = () => true;
        return [nine, nine + 1, budget, "spent", "trap", "halted"].map((units) => {
            facts.facts[0] = { units, start: null, schedule: null };
            return facts.isHeavy(0); })""")
    assert marks == [False, True, True, True, True, False]


def test_branches_are_made_gone_back_to_and_compared(studio, page):
    frames = garden_frames()
    page.script("document.getElementById('branches-pane').open = true")
    make_branch(page, "two hops")
    page.click_cell(60, "1")
    edited = frames[:60] + [frame(RIGHT)] + frames[61:]
    press_in_row(page, "two hops", "Compare")
    page.wait("document.querySelectorAll('#compared tr').length === 6")
    first = [text.partition("place ")[2] or text for text in compared_texts(page)]
    images = [of_frames("frames", inputs, 0, 240) for inputs in (frames, edited)]
    byte = next(at for at in range(241 * IMAGE) if images[0][at] != images[1][at])
    assert first[1] == str(byte // IMAGE) and first[4:] == ["the same", "240 and 240"]
    press_in_row(page, "two hops", "Go to")
    page.wait("studio.session.inputs[60].pads[0] === 33")
    page.go_to(70)
    assert page.image() == image(frames, 70)
    page.keys("control+z")
    page.wait_for_picture()
    assert page.image() == image(edited, 70)
    assert studio.branch("two hops") == recording(frames)


def test_it_is_compared_with_another_file(studio, page):
    other = studio.recording.with_name("shorter.w4rec")
    other.write_bytes(recording(garden_frames()[:100]))
    page.script("document.getElementById('branches-pane').open = true")
    page.driver.find_element("id", "compare-file").send_keys(str(other))
    page.wait("document.querySelectorAll('#compared tr').length === 6")
    assert compared_texts(page) == ["the same"] * 5 + ["240 and 100"]


def compared_texts(page):
    """What the table of a comparison says of each thing."""
    cells = "[...document.querySelectorAll('#compared td:nth-child(2)')]"
    return page.value(f"{cells}.map((cell) => cell.textContent)")


def make_branch(page, name):
    page.script("""
        const form = document.getElementById('branch-form');
        form.elements.name.value = arguments[0];
        form.querySelector('button').click()""", name)
    cells = "[...document.querySelectorAll('#branch-table td')]"
    page.wait(f"{cells}.some((cell) => cell.textContent === '{name}')")


def press_in_row(page, name, button):
    page.script("""
        const [name, text] = arguments;
        const row = [...document.querySelectorAll('#branch-table tbody tr')]
            .find((one) => one.cells[0].textContent === name);
        [...row.querySelectorAll('button')].find((one) => one.textContent === text).click()""", name, button)


def test_a_film_is_made(studio, page):
    if not shutil.which("ffmpeg"):
        raise Missing("ffmpeg isn't installed")
    data = page.made("film", 61, 80)
    assert data[4:8] == b"ftyp" and len(data) > 2000


def test_a_film_without_another_program_has_each_frame(studio, page):
    """The frames that Chromium decodes of it, each as long as it stands, are those of `frames`."""
    images = of_frames("frames", garden_frames(), 55, 74)
    film = moving_png.of_images(io.BytesIO(images), 20)
    shown = page.driver.execute_async_script("""
        const [text, done] = arguments;
        const data = Uint8Array.from(atob(text), (letter) => letter.charCodeAt(0));
        const decoder = new ImageDecoder({ data, type: "image/png" });
        const canvas = new OffscreenCanvas(640, 640), context = canvas.getContext("2d");
        async function frame(frameIndex) {
            const { image } = await decoder.decode({ frameIndex });
            context.drawImage(image, 0, 0);
            const pixels = context.getImageData(0, 0, 640, 640).data;
            const hash = new Uint8Array(await crypto.subtle.digest("SHA-256", pixels));
            return [image.duration, Array.from(hash)];
        }
        async function frames() {
            await decoder.tracks.ready;
            await decoder.completed;
            const rows = [];
            const { frameCount } = decoder.tracks.selectedTrack;
            for (let at = 0; at < frameCount; at += 1) rows.push(await frame(at));
            return rows;
        }
        frames().then(done, (fault) => done(fault.message))""", base64.b64encode(film).decode())
    assert isinstance(shown, list), shown
    places = [bytes(hash_) for duration, hash_ in shown for _ in range(round(60 * duration / 1_000_000))]
    assert places == [digest_of_squares(images[at + 15:at + IMAGE]) for at in range(0, len(images), IMAGE)]


def digest_of_squares(pixels):
    """Of an image whose pixels are squares of four by four, each with an alpha of 255."""
    rows = [b"".join((pixels[at:at + 3] + b"\xff") * 4 for at in range(row, row + 480, 3))
            for row in range(0, len(pixels), 480)]
    return hashlib.sha256(b"".join(row * 4 for row in rows)).digest()


def test_equal_images_of_a_film_stand_longer(studio, page):
    """A delay counts up to 65,535 frames."""
    assert list(moving_png.held("aabca")) == [("a", 2), ("b", 1), ("c", 1), ("a", 1)]
    assert list(moving_png.held("a" * 65_537)) == [("a", 65_535), ("a", 2)]
    assert not list(moving_png.held(""))


def test_files_have_the_recording_s_name_and_stay_as_a_link(studio, page):
    ending = "webm" if studio.kind == "page" else "mp4" if shutil.which("ffmpeg") else "png"
    page.go_to(60)
    page.keys("shift+arrow_down")
    names = {"shift+w": "game.wav", "shift+s": "game.copy.w4rec", "shift+f": f"game.{ending}"}
    for key, name in names.items():
        page.keys(key)
        page.wait(f"document.getElementById('made').download === '{name}'")
    assert copy_after(page) == recording(garden_frames())


def test_a_copy_has_the_last_edit(studio, page):
    """Also where the edit comes to the server later than a request would."""
    page.go_to(60)
    page.script("""
        const { socket } = studio.session.connection, send = socket.send.bind(socket);
        socket.send = (text) => setTimeout(() => send(text), 300)""")
    frames = garden_frames()
    assert copy_after(page, "1") == recording(frames[:60] + [frame(RIGHT)] + frames[61:])


def copy_after(page, *keys):
    """The bytes of a copy of the recording that is saved right after keys."""
    page.script("const make = URL.createObjectURL;"
                "URL.createObjectURL = (blob) => { window.copied = blob; return make(blob); }")
    page.keys(*keys, "shift+s")
    page.wait("document.getElementById('made').download === 'game.copy.w4rec' && window.copied")
    return bytes(page.driver.execute_async_script("""
        const done = arguments[arguments.length - 1];
        copied.arrayBuffer().then((data) => done(Array.from(new Uint8Array(data))))"""))


def test_help_names_each_key_once(studio, page):
    page.keys("?")
    assert page.value("document.getElementById('help').open")
    keys = page.value("[...document.querySelectorAll('#help-text kbd')].map((key) => key.textContent)")
    assert len(keys) == len(set(keys)) > 40
    page.keys("escape")
    page.wait("!document.getElementById('help').open")


def test_light_and_dark(studio, page):
    colors = []
    for _ in range(2):
        page.keys("l")
        colors.append(page.value("getComputedStyle(document.body).backgroundColor"))
    assert sorted(colors) == ["rgb(25, 28, 27)", "rgb(251, 250, 246)"]


def test_only_the_rows_that_are_seen_are_drawn(studio, page):
    long = studio.recording.with_name("long.w4rec")
    long.write_bytes(recording([frame(RIGHT if at % 100 < 50 else 0) for at in range(36000)]))
    with studio.other(CART, long) as other:
        other_page = Page(page.driver)
        other_page.open(other.address)
        rows = other_page.driver.execute_async_script("""
            const done = arguments[arguments.length - 1], { roll } = studio;
            const { painter } = roll;
            let rows = 0;
            const paintRow = painter.paintRow.bind(painter), paint = painter.paint.bind(painter);
            painter.paintRow = (...words) => { rows += 1; paintRow(...words); };
            painter.paint = (top) => { paint(top); if (top === 18 * 20000) done(rows); };
            roll.scroller.scrollTop = 18 * 20000;""")
        assert 10 < rows < 200
        assert other_page.value("studio.roll.firstRow") == 20000
        page.driver.get("about:blank")


# What is the server's own, or a module of the page that both have; of films, test_published.py has the other's.
SERVER_ONLY = (test_a_film_is_made, test_a_film_without_another_program_has_each_frame,
               test_equal_images_of_a_film_stand_longer, test_sound_of_the_page_follows_the_program)
