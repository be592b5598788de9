"""Tests of when the page saves and what it says of that, and of texts of inputs with a bad line."""
from recordings import AWAY, RIGHT, frame, garden_frames, recording
from test_edits import changed, check_saved, saved_frames, turn_keys

SAVED = "document.getElementById('saved').textContent"
SPOKEN = "document.getElementById('spoken').textContent"
GOOD = "1 0 0 0 32767 32767 0"


def frames_of_file(studio):
    """How many frames the recording's file has, in version 2."""
    return (len(studio.saved()) - 47) // 10


def test_it_is_saved_while_recording(studio, page):
    """Every few seconds, one save at a time, and the recording goes on."""
    page.script("""
        const { connection } = studio.session, ask = connection.ask.bind(connection);
        window.saves = { now: 0, most: 0, all: 0 };
        connection.ask = async (line, options) => {
            if (line !== "save") return ask(line, options);
            saves.all += 1;
            saves.now += 1;
            saves.most = Math.max(saves.most, saves.now);
            try { return await ask(line, options); } finally { saves.now -= 1; } }""")
    page.go_to(240)
    page.keys("r")
    page.wait("studio.recorder.isRecording")
    pressed = turn_keys(page, "keydown", ["ArrowRight"])
    page.wait("saves.all >= 2 && saves.now === 0", patience=40)
    assert page.value("studio.recorder.isRecording")
    saved = frames_of_file(studio)
    assert saved > 250
    page.wait(f"studio.session.count >= {saved + 60}", patience=40)
    assert page.value("saves.most") == 1
    assert page.value("saves.all") <= 3 + page.value("studio.session.count") / 120
    page.keys("escape")
    end = page.value("studio.session.count")
    assert saved_frames(studio, page)[240:] == [frame(0)] * (pressed - 240) + [frame(RIGHT)] * (end - pressed)


HOLD_SAVES = """
    const { connection } = studio.session, ask = connection.ask.bind(connection);
    window.gates = [];
    connection.ask = async (line, options) => {
        if (line === "save") await new Promise((resolve) => gates.push(resolve));
        return ask(line, options); }"""


def press_of_frame(page, at):
    page.script("""
        const [at] = arguments, { session } = studio, old = session.inputs[at];
        session.change("", [{ kind: "set", at, input: { ...old, pads: [32, 0, 0, 0] } }])""", at)


def test_saved_is_said_only_of_what_was_saved(studio, page):
    """Two saves are asked for at once; the first one's answer says nothing of what came between."""
    page.script("studio.saver.noteEdit = () => {}")
    page.script(HOLD_SAVES)
    press_of_frame(page, 3)
    page.script("studio.session.save()")
    page.wait("gates.length === 1")
    press_of_frame(page, 4)
    page.script("studio.session.save(); studio.saver.show(); gates[0]()")
    page.wait("gates.length === 2")
    page.answer("state 0")
    assert page.value(SAVED) == "not saved yet" and page.value("studio.session.isDirty")
    page.script("gates[1]()")
    page.wait(f"{SAVED}.startsWith('saved ')")
    frames = garden_frames()
    studio.wait_for_file(recording(frames[:3] + [frame(RIGHT)] * 2 + frames[5:]))


def test_a_save_that_is_refused_is_told_and_tried_again(studio, page):
    page.script("""
        const { connection } = studio.session, ask = connection.ask.bind(connection);
        connection.ask = (line, options) => ask(line === "save" ? "state 36001" : line, options);
        window.mend = () => { connection.ask = ask; }""")
    press_of_frame(page, 3)
    page.wait("document.getElementById('fault-text').textContent.startsWith('not saved: ')", patience=30)
    assert page.value(SAVED) == "not saved yet"
    page.script("mend()")
    studio.wait_for_file(recording(changed(garden_frames(), 3, frame(RIGHT))))
    page.wait("document.getElementById('fault').hidden")


def test_a_refusal_that_names_a_file_is_one(studio, page):
    why = f"/home/someone/{'recordings/' * 6}game.w4rec can't be written: No space left on device"
    page.script("""
        const [text] = arguments, { socket } = studio.session.connection, send = socket.send.bind(socket);
        const receive = (data) => socket.dispatchEvent(new MessageEvent("message", { data }));
        socket.send = (lines) => {
            if (lines !== "save") return send(lines);
            receive(new TextEncoder().encode(text).buffer);
            receive("end"); }
        studio.keeper.isPaused = studio.facts.isPaused = () => true;""", f"refused {why}\n")
    page.wait("!studio.session.connection.waiting.length")
    page.script("studio.session.edits += 1; studio.session.save()")
    page.wait("!document.getElementById('fault').hidden", patience=30)
    told = page.value("document.getElementById('fault-text').textContent")
    assert told == f"not saved: save: {why}; it is tried again in a while"
    assert page.value(SAVED) == "not saved yet"


def set_text(page, text):
    page.script("""
        document.getElementById('text-area').value = arguments[0];
        document.querySelector('#text-dialog button[value=set]').click()""", text)


def test_a_bad_line_of_a_text_is_named_and_nothing_is_lost(studio, page):
    frames = garden_frames()
    page.go_to(0)
    page.keys("e")
    text = f"{GOOD}\n# a comment\n1 0 0 0 300 300\n{GOOD}\n"
    set_text(page, text)
    assert page.value("[document.getElementById('text-dialog').open, studio.session.done.length]") == [True, 0]
    assert page.value("document.getElementById('text-refusal').textContent") == (
        "nothing was changed: line 3 isn't an input: it has 6 numbers, and an input has 7")
    area = "(({ value, selectionStart: from, selectionEnd: to }) => [value, value.slice(from, to)])"
    assert page.value(f"{area}(document.getElementById('text-area'))") == [text, "1 0 0 0 300 300"]
    set_text(page, text.replace("300 300", "300 300 2"))
    assert not page.value("document.getElementById('text-dialog').open")
    one = frame(1, mouse=(AWAY, AWAY, 0))
    check_saved(studio, page, [one, frame(1, mouse=(300, 300, 2)), one] + frames[1:])


def test_a_text_that_doesn_t_fit_is_told_and_nothing_is_lost(studio, page):
    page.go_to(0)
    page.keys("e")
    set_text(page, f"{GOOD}\n" * 35_762)
    assert page.value("document.getElementById('text-refusal').textContent") == (
        "nothing was changed: 35762 inputs don't fit: there is room for 35761")
    assert page.value("[document.getElementById('text-dialog').open, studio.session.count]") == [True, 240]
    page.keys("escape")
    check_saved(studio, page, garden_frames())


def test_what_is_wrong_with_a_pasted_line_is_said(studio, page):
    faults = {
        "256 0 0 0 0 0 0": '"256" isn\'t a number from 0 to 255',
        "0 0 0 -1 0 0 0": '"-1" isn\'t a number from 0 to 255',
        "0 0 0 0 0 -32769 0": '"-32769" isn\'t a number from -32768 to 32767',
        "0 0 0 0 0 right 0": '"right" isn\'t a number from -32768 to 32767',
        "0 0 0 0 0 0 0 rest": '"rest" isn\'t the word reset',
        "0 0 0 0 0 0 0 reset 1": '"1" is a word too many',
        "set 4 0 0 0": "it has 3 numbers, and an input has 7",
        "delete 7": '"delete" isn\'t a number from 0 to 255',
    }
    for line, fault in faults.items():
        text = f"{GOOD}\r\n\r\ninsert 5 {GOOD} reset\r\n{line}\r\n"
        page.script("studio.rowActs.paste(arguments[0], false)", text)
        assert page.value(SPOKEN) == f"nothing was pasted: line 4 isn't an input: {fault}"
    assert page.value("studio.session.done.length") == 0
    check_saved(studio, page, garden_frames())
    page.script("studio.rowActs.paste(arguments[0], true)", f"{GOOD}\r\ninsert 5 {GOOD} reset\r\n")
    check_saved(studio, page, [frame(1), frame(1, reset=True)] + garden_frames()[2:])
