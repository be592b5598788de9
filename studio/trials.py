"""For tests without a browser: an edit of the example's recording, and studios that end."""
import contextlib
import os
import pathlib
import signal
import stat
import subprocess

from browser import PATIENCE, STUDIO, wait_until
from recordings import RIGHT, frame, garden_frames

FRAMES = garden_frames()
EDIT = f"set 60 {RIGHT} 0 0 0 32767 32767 0"
EDITED = FRAMES[:60] + [frame(RIGHT)] + FRAMES[61:]
SOON = 25  # seconds that an end may take on a busy machine; what is computed takes longer


def end_all(studio):
    """Ends a studio and what it started, by their ids."""
    left = []
    if studio.process.poll() is None:
        with contextlib.suppress(subprocess.CalledProcessError, ValueError):
            left = studio.program_and_guard()
        for each in (studio.process.pid, *left):
            with contextlib.suppress(ProcessLookupError):
                os.kill(each, signal.SIGKILL)
        studio.process.wait()
        wait_until(lambda: not any(map(is_there, left)), "what was killed ends")
    studio.close()


def is_there(process_id):
    """Whether a process runs."""
    try:
        text = pathlib.Path(f"/proc/{process_id}/stat").read_text(encoding="ascii", errors="replace")
    except OSError:
        return False
    return text.rsplit(")", 1)[1].split()[0] != "Z"


def refusal_of(*words, **more):
    """What studio/run says before it ends, with a status other than 0."""
    ran = subprocess.run([STUDIO / "run", "--no-browser", *map(str, words)], capture_output=True, text=True,
                         timeout=PATIENCE, check=False, **more)
    assert ran.returncode != 0 and not ran.stdout, ran
    assert "Traceback" not in ran.stderr, ran.stderr
    return ran.stderr.strip()


def elsewhere(studio):
    """An environment whose folder for temporary files is one of the studio's room."""
    room = pathlib.Path(studio.room.name, "elsewhere")
    room.mkdir()
    return dict(os.environ, TMPDIR=str(room))


def mode_of(path):
    return stat.S_IMODE(os.lstat(path).st_mode)
