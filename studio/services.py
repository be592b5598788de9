"""What the page gets beside the orders of the session: branches, watches, comparisons, sound and films. What
shows a run is made by a command of w4 over the draft, which is the recording as it was saved last.
"""
import asyncio
import json
import re
import tempfile

import media
import programs
import run_file
from folder_files import FolderFiles
from refusal import Refusal

MOST_FRAMES = 36_000  # of a recording


def stretch(request):
    """First and last place of a stretch that the page asked for."""
    words = [request.query.get(name, "") for name in ("from", "to")]
    if not all(re.fullmatch("[0-9]{1,5}", word) for word in words):
        raise Refusal(f"a stretch has two places, each at most {MOST_FRAMES}")
    first, last = map(int, words)
    if not first <= last <= MOST_FRAMES:
        raise Refusal(f"a stretch ends where it begins or behind that, and at {MOST_FRAMES} at most")
    return first, last


class Services:
    """Answers the page's requests but those for its files."""

    def __init__(self, session, files):
        self.session, self.files = session, files
        self.folder = FolderFiles(files)
        self.told = None  # the note that the page had last
        self.table = {
            ("GET", "branches"): self.branch_list, ("POST", "branches"): self.branch,
            ("DELETE", "branches"): self.remove_branch, ("GET", "branch"): self.branch_text,
            ("GET", "recording"): self.recording, ("POST", "compare"): self.compare,
            ("GET", "watches"): self.watches, ("POST", "watches"): self.store_watches,
            ("GET", "wave"): self.wave, ("GET", "film"): self.film, ("GET", "run"): self.run_in_one_file,
        }

    def knows(self, method, name):
        return (method, name) in self.table

    async def answer(self, request, name):
        """Type and bytes."""
        return await self.table[request.method, name](request)

    def stop(self):
        """Ends the programs that run for the page, and those that it still asks for."""
        programs.running.end()

    def greeting(self):
        """What the page is told at first."""
        files = self.files
        return {"cart": files.cart.name, "recording": str(files.recording), "budget": files.budget}

    def look_into_folder(self):
        """Looks at what is kept beside the recording, for a page that has just come; what it should be told."""
        self.told = None
        self.folder.read_watches()
        try:
            self.folder.branch_list()
        except (Refusal, OSError) as fault:
            return str(fault)
        return self.new_note()

    def new_note(self):
        """What the page should be told of files that were left out; None where it was."""
        note = self.folder.note()
        told, self.told = self.told, note
        return note if note != told else None

    async def branch_list(self, request):
        return "application/json", json.dumps(self.folder.branch_list()).encode()

    async def branch(self, request):
        """Saves, and copies the recording."""
        name = request.query.get("name", "")
        self.folder.new_branch_file(name)
        self.folder.put_branch(name, await self.saved())
        return await self.branch_list(request)

    async def remove_branch(self, request):
        self.folder.remove_branch(request.query.get("name", ""))
        return await self.branch_list(request)

    async def branch_text(self, request):
        return "text/plain; charset=utf-8", self.folder.branch_text(request.query.get("name", "")).encode()

    async def watches(self, request):
        return "application/json", self.folder.watches()

    async def store_watches(self, request):
        self.folder.store_watches(request.body)
        return await self.watches(request)

    async def saved(self):
        """Saves; the recording's bytes."""
        await self.session.save()
        return self.session.draft()

    async def recording(self, request):
        return "application/octet-stream", await self.saved()

    async def compare(self, request):
        """The first places at which the recording differs from a branch, or from one that was sent."""
        name = request.query.get("name")
        other = request.body if name is None else self.folder.branch_bytes(name)
        await self.session.save()
        return "text/plain; charset=utf-8", await asyncio.to_thread(self.comparison, other)

    def comparison(self, other):
        """What `compare` writes. The other recording gets a file of its own, as a branch may be replaced."""
        cart, font = self.files.cart, self.files.font
        with tempfile.NamedTemporaryFile(suffix=".w4rec") as file:
            file.write(other)
            file.flush()
            status, output, line = programs.run_program(
                "compare", cart, self.files.draft, cart, file.name, font)
        if status == 2:
            raise Refusal("this w4 doesn't know the command compare")
        if status not in (0, 1):
            raise Refusal(line or f"the comparison was ended (status {status})")
        return output

    async def wave(self, request):
        first, last = stretch(request)
        await self.session.save()
        return "audio/wav", await asyncio.to_thread(media.wave, self.files, first, last)

    async def film(self, request):
        first, last = stretch(request)
        await self.session.save()
        return await asyncio.to_thread(media.film, self.files, first, last)

    async def run_in_one_file(self, request):
        """The whole run as a page that plays it."""
        await self.session.save()
        return "text/html", await asyncio.to_thread(run_file.of_files, self.files)
