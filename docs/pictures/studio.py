#!/usr/bin/env python3
"""Makes studio.png, a picture of the studio: the garden's recording at its second hop, of which two
frames were taken, and the number in memory that counts the hops.

    python3 docs/pictures/studio.py

It needs ./w4, and Debian's chromium, chromium-driver and python3-selenium.
"""
import pathlib
import sys

HERE = pathlib.Path(__file__).resolve().parent
sys.path.insert(0, str(HERE.parent.parent / "studio"))
sys.dont_write_bytecode = True

import browser  # noqa: E402

HOPS = 8472


def prepare(page):
    """Frames 122 and 123 lose their button, and the panes show the counter as it rises."""
    page.script("studio.watches.add(arguments[0], 4, 'hops')", HOPS)
    page.script("for (const name of ['traces', 'hexadecimal'])"
                "document.getElementById(`${name}-pane`).open = true")
    page.go_to(121)
    page.wait("studio.session.trusted === 240 && studio.watches.list[0].values.size >= 120")
    page.press_at([page.cell(122, "1"), page.cell(123, "1")])
    page.script("""
        document.getElementById('hexadecimal-address').value = '0x2110';
        document.querySelector('#hexadecimal-form button').click();
        document.activeElement.blur();""")
    page.go_to(121)
    page.wait_for_picture()
    page.wait("document.querySelectorAll('#hexadecimal mark').length > 0 && studio.facts.of(130)")
    page.keys("control+s")
    page.wait("!studio.session.isDirty && document.getElementById('saved').textContent.startsWith('saved')")


def main():
    browser.need_tools()
    driver = browser.open_chromium(1500, 1000)
    driver.set_script_timeout(browser.PATIENCE)
    try:
        with browser.Studio() as studio:
            page = browser.Page(driver)
            page.open(studio.address)
            page.script("document.getElementById('names').textContent = 'cart.wasm · garden.w4rec'")
            prepare(page)
            driver.save_screenshot(str(HERE / "studio.png"))
            driver.get("about:blank")
    finally:
        driver.quit()


main()
