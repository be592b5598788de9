"""Tests of the piano roll: inputs are edited by mouse and keys; pictures and the saved file follow."""
from recordings import AWAY, BUTTON, CART, RIGHT, frame, garden_frames, image, recording


def changed(frames, at, new):
    return frames[:at] + [new] + frames[at + 1:]


def check_saved(studio, page, frames):
    """Saves, and compares the whole file."""
    page.save()
    studio.wait_for_file(recording(frames))


def test_opens_on_the_recording(studio, page):
    assert page.value("studio.session.count") == 240
    assert page.image() == image(garden_frames(), 0)
    page.go_to(70)
    assert page.image() == image(garden_frames(), 70)


def test_a_click_changes_a_button_and_the_picture(studio, page):
    frames = garden_frames()
    page.go_to(70)
    page.click_cell(60, "1")
    edited = changed(frames, 60, frame(RIGHT))
    page.wait_for_picture()
    assert page.image() == image(edited, 70) != image(frames, 70)
    page.keys("control+z")
    page.wait_for_picture()
    assert page.image() == image(frames, 70)
    page.keys("control+y")
    page.wait_for_picture()
    assert page.image() == image(edited, 70)
    check_saved(studio, page, edited)


def test_a_drag_sets_a_button_over_rows_as_one_step(studio, page):
    frames = garden_frames()
    page.go_to(70)
    page.press_at([page.cell(60, "1"), page.cell(61, "1"), page.cell(63, "1")])
    page.wait_for_picture()
    level = frames[:60] + [frame(RIGHT)] * 4 + frames[64:]
    assert page.image() == image(level, 70)
    assert page.value("studio.session.done.length") == 1
    page.keys("control+z")
    check_saved(studio, page, frames)


def test_a_hundred_steps_are_undone_and_redone(studio, page):
    frames = garden_frames()
    page.script("""
        for (let at = 0; at < 100; at += 1) studio.session.change(`step ${at}`,
            [{ kind: "set", at, input: { ...studio.session.inputs[at], pads: [at, 1, 2, 3] } }]);
        """)
    edited = [frame(at, pads=(1, 2, 3)) for at in range(100)] + frames[100:]
    check_saved(studio, page, edited)
    page.script("for (let step = 0; step < 100; step += 1) studio.session.undo()")
    check_saved(studio, page, frames)
    page.script("for (let step = 0; step < 100; step += 1) studio.session.redo()")
    check_saved(studio, page, edited)


def test_rows_are_inserted_and_deleted_by_keys(studio, page):
    frames = garden_frames()
    page.go_to(50)
    page.keys("i", "shift+arrow_down", "shift+arrow_down", "i")
    inserted = frames[:50] + [frame(0)] * 4 + frames[50:]
    check_saved(studio, page, inserted)
    page.go_to(49)
    page.keys("shift+arrow_down", "shift+arrow_down", "delete")
    deleted = inserted[:49] + inserted[52:]
    check_saved(studio, page, deleted)
    page.keys("control+z", "control+z")
    check_saved(studio, page, frames[:50] + [frame(0)] + frames[50:])
    page.keys("control+y", "control+y")
    check_saved(studio, page, deleted)
    page.keys("control+z", "control+z", "control+z")
    check_saved(studio, page, frames)


def test_rows_are_cut_copied_and_pasted(studio, page):
    frames = garden_frames()
    page.go_to(60)
    page.keys("shift+arrow_down", "shift+arrow_down", "control+c", "home", "control+v")
    pasted = frames[60:63] + frames
    check_saved(studio, page, pasted)
    page.go_to(5)
    page.keys("control+shift+v")
    over = pasted[:5] + frames[60:63] + pasted[8:]
    check_saved(studio, page, over)
    page.keys("control+z")  # one press of a key is one step, also where the browser makes two events of it
    check_saved(studio, page, pasted)
    page.keys("control+y")
    page.keys("shift+arrow_down", "control+x")
    check_saved(studio, page, over[:5] + over[7:])


def test_a_selection_stays_while_the_place_moves(studio, page):
    frames = garden_frames()
    page.go_to(60)
    page.keys("shift+arrow_down", "space")
    page.wait("studio.player.place >= 70")
    page.keys("space", "2")
    check_saved(studio, page, frames[:60] + [frame(RIGHT + BUTTON + 2)] * 2 + frames[62:])
    page.keys("escape", "home", "2")
    check_saved(studio, page, [frame(2)] + frames[1:60] + [frame(RIGHT + BUTTON + 2)] * 2 + frames[62:])


def test_all_rows_are_those_that_are_there(studio, page):
    frames = garden_frames()
    page.keys("control+a")
    selected = "document.getElementById('selection-text').textContent"
    assert page.value(selected) == "240 rows, 0 to 239"
    page.script("studio.session.change('', [{ kind: 'insert', at: 240, input: studio.session.inputs[0] }])")
    assert page.value(selected) == "240 rows, 0 to 239"
    page.keys("delete")
    check_saved(studio, page, frames[:1])


def test_keys_lead_to_the_next_change_of_buttons(studio, page):
    frames = garden_frames()
    changes = [at for at in range(1, 240) if frames[at] != frames[at - 1]]
    steps = [*changes, 240, *reversed(changes), 0]
    seen = []
    for key in ["control+arrow_down"] * (len(changes) + 1) + ["control+arrow_up"] * (len(changes) + 1):
        page.keys(key)
        seen.append(page.value("studio.player.place"))
    assert len(changes) > 4 and seen == steps
    page.keys("control+arrow_up")
    assert page.value("studio.player.place") == 0


def test_columns_say_which_gamepad_they_are_of(studio, page):
    page.keys("p", "p", "p")
    buttons = "studio.roll.columns.filter(({ kind }) => kind === 'button')"
    titles = page.value(f"{buttons}.map(({{ title }}) => title)")
    signs = "← → ↑ ↓ 1 2".split()
    assert titles == [sign + mark for mark in ("", "₂", "₃", "₄") for sign in signs]
    page.click_cell(3, "2₃")
    check_saved(studio, page, changed(garden_frames(), 3, frame(0, pads=(0, 2, 0))))


def test_keys_press_buttons_in_the_selected_rows(studio, page):
    frames = garden_frames()
    page.go_to(2)
    page.keys("shift+arrow_down", "1", "w", "t")
    pressed = frames[:2] + [frame(BUTTON + 64, reset=True)] * 2 + frames[4:]
    check_saved(studio, page, pressed)
    page.keys("w", "t", "arrow_right", "enter")
    check_saved(studio, page, frames[:2] + [frame(BUTTON + RIGHT)] * 2 + frames[4:])


def test_autofire_and_text(studio, page):
    frames = garden_frames()
    page.go_to(0)
    page.keys("arrow_right", *["shift+arrow_down"] * 6, "f", "2", "tab", "1", "enter")
    fired = [frame(RIGHT if at % 3 < 2 else 0) for at in range(7)] + frames[7:]
    check_saved(studio, page, fired)
    page.keys("home", "e")
    page.script("""
        document.getElementById('text-area').value = '1 2 3 4 -5 7 2 reset\\n0 0 0 0 32767 32767 0\\n';
        document.querySelector('#text-dialog button[value=set]').click()""")
    text = [frame(1, reset=True, pads=(2, 3, 4), mouse=(-5, 7, 2)), frame(0, mouse=(AWAY, AWAY, 0))]
    check_saved(studio, page, text + fired[1:])


def test_a_dialog_sets_at_once_or_not_at_all(studio, page):
    """What it sets is there before the next key; what was left before isn't set with it."""
    frames = garden_frames()
    page.go_to(0)
    page.keys("arrow_right", "shift+arrow_down", "f", "escape", "f", "tab", "tab", "tab", "enter")
    steps = page.script("""
        const press = (button) => {
            studio.acts.byName.get("autofire").run();
            document.querySelector(`#autofire-dialog button[value=${button}]`).click();
            return [studio.session.done.length, document.querySelector("dialog[open]")];
        };
        return ["cancel", "set"].map(press)""")
    assert steps == [[0, None], [1, None]]
    check_saved(studio, page, [frame(RIGHT), frame(0)] + frames[2:])


def test_a_second_is_recorded_live_over_the_rest(studio, page):
    frames = garden_frames()
    page.go_to(100)
    page.script("""
        const { recorder } = studio;
        window.turns = [];
        recorder.addEventListener("change", () => turns.push([recorder.place, performance.now()]))""")
    page.keys("r")
    page.wait("studio.recorder.isRecording")
    pressed = turn_keys(page, "keydown", ["ArrowLeft", "KeyX"])
    page.wait(f"studio.player.place >= {pressed + 60}")
    released = turn_keys(page, "keyup", ["ArrowLeft", "KeyX"])
    page.keys("escape")
    page.wait_for_picture()
    (first, start), (end, stop) = page.value("turns")
    assert first == 100 and end == page.value("studio.player.place")
    assert end - first <= 0.066 * (stop - start), "faster than 60 frames a second"
    saved = saved_frames(studio, page)
    left = [frame(16 + BUTTON)] * (released - pressed)
    played = [frame(0)] * (pressed - 100) + left + [frame(0)] * (end - released)
    assert saved == frames[:100] + played + frames[end:]
    assert page.image() == image(saved, end)
    page.keys("control+z")
    check_saved(studio, page, frames)


def test_sixty_frames_a_second_are_recorded_on_each_display(studio, page):
    counts = page.script("""
        const { recorder } = studio;
        window.requestAnimationFrame = () => 0;
        return [30, 60, 75, 144, 240].map((display) => {
            let frames = 0;
            Object.assign(recorder, { isRecording: true, time: null, pictures: 0 });
            recorder.recordFrame = () => { frames += 1; };
            for (let tick = 0; tick <= display; tick += 1) recorder.tick(1000 + (1000 * tick) / display);
            return frames;
        })""")
    assert all(59 <= count <= 61 for count in counts), counts


def test_recording_inserts_and_plays_a_real_gamepad(studio, page):
    frames = garden_frames()
    page.script("""
        const button = (pressed) => ({ pressed, value: Number(pressed) });
        navigator.getGamepads = () => [{ connected: true, axes: [0.9, 0],
            buttons: Array.from({ length: 16 }, (_, at) => button(at === 0)) }, null, null, null]""")
    page.go_to(50)
    page.keys("shift+r", "r")
    page.wait("studio.recorder.isRecording")
    page.wait("studio.player.place >= 60")
    page.keys("escape")
    page.wait_for_picture()
    end = page.value("studio.player.place")
    saved = saved_frames(studio, page)
    assert saved == frames[:50] + [frame(RIGHT + BUTTON)] * (end - 50) + frames[50:]
    assert page.image() == image(saved, end)


def test_a_recording_is_begun_from_nothing(studio, page):
    with studio.other(CART, None) as other:
        page.open(other.address)
        assert page.value("studio.session.count") == 0
        page.wait("document.getElementById('spoken').textContent.includes('press R')")
        page.keys("a", "delete", "enter", "arrow_down", "space", "r")
        turn_keys(page, "keydown", ["ArrowRight"])
        page.wait("studio.player.place >= 30")
        page.keys("escape")
        page.wait_for_picture()
        end = page.value("studio.player.place")
        saved = saved_frames(other, page)
        assert len(saved) == end and saved[-1] == frame(RIGHT)
        assert page.image() == image(saved, end)
        page.driver.get("about:blank")


def test_the_mouse_is_recorded(studio, page):
    frames = garden_frames()
    page.keys("o", "r")
    moved = page.script("""
        const screen = document.getElementById("screen"), box = screen.getBoundingClientRect();
        const [clientX, clientY] = [box.left + 40.5 * box.width / 160, box.top + 120.5 * box.height / 160];
        screen.dispatchEvent(new PointerEvent("pointermove", { clientX, clientY, buttons: 3 }));
        return studio.player.place""")
    page.wait(f"studio.player.place >= {moved + 10}")
    page.keys("escape")
    page.wait_for_picture()
    end = page.value("studio.player.place")
    saved = saved_frames(studio, page)
    assert saved[moved:end] == [frame(0, mouse=(40, 120, 3))] * (end - moved) and saved[end:] == frames[end:]


def turn_keys(page, kind, codes):
    """Presses keys of the keyboard, or lets them go, all at one place, which is returned."""
    return page.script("""
        const [kind, codes] = arguments;
        for (const code of codes) window.dispatchEvent(new KeyboardEvent(kind, { code }));
        return studio.player.place""", kind, codes)


def saved_frames(studio, page):
    """The inputs of the file, after a save: those that the page has."""
    page.save()
    frames = [frame(pads[0], reset, pads[1:], mouse) for pads, reset, mouse in page.value(
        "studio.session.inputs.map(({ pads, reset, x, y, mouse }) => [pads, reset, [x, y, mouse]])")]
    budget = page.value("studio.facts.budget")
    studio.wait_for_file(recording(frames, budget=budget))
    return frames
