"""Opens the page in a browser. Its address has the token, and other users of the machine see command lines: so the
browser is given a file that only this user may read, which leads to the address.
"""
import html
import os
import pathlib
import shutil
import tempfile
import threading
import webbrowser

PAGE = """<!DOCTYPE html>
<html lang="en"><head><meta charset="utf-8"><title>The studio</title>
<meta http-equiv="refresh" content="0; url={address}"></head>
<body><p><a href="{address}">Open the studio</a></p></body></html>
"""


def private_room():
    """A new folder of mode 700, in the one for what lives as long as a login, or else among temporary files."""
    runtime = os.environ.get("XDG_RUNTIME_DIR")
    if runtime and os.path.isdir(runtime) and os.access(runtime, os.W_OK | os.X_OK):
        return pathlib.Path(tempfile.mkdtemp(prefix="w4-studio-", dir=runtime))
    return pathlib.Path(tempfile.mkdtemp(prefix="w4-studio-"))


class PageOpener:
    """The file, as long as the studio runs."""

    def __init__(self):
        self.room = None

    def open(self, address):
        """Opens a browser, which may be one that takes the terminal until it is closed."""
        self.room = private_room()
        path = self.room / "studio.html"
        with open(os.open(path, os.O_WRONLY | os.O_CREAT | os.O_EXCL, 0o600), "w", encoding="utf-8") as file:
            file.write(PAGE.format(address=html.escape(address)))
        threading.Thread(target=webbrowser.open, args=(path.as_uri(),), daemon=True).start()

    def close(self):
        if self.room:
            shutil.rmtree(self.room, ignore_errors=True)
