"""Tests of requests and connections that no browser makes: each has an answer, and none harms the session."""
import asyncio
import contextlib
import os
import signal
import socket
import struct
import threading
import time

import http_request
from browser import TOP, wait_until
from raw_client import TEXT, Client, WatchedStudio, read_answer
from recordings import RIGHT, frame, garden_frames, recording
from test_protocol import MASK, masked_frame

ENDLESS = TOP / "cases/inputs/carts/endless-loop.wasm"
SLOW_BUDGET = 200_000_000  # units of a frame of that cart, which takes them all: a second or so
SOON = 20  # seconds for what takes a moment on a machine that does nothing else
FRAMES = garden_frames()


def bodied(method, name, body, client):
    return client.head(name, method, {"Content-Length": str(len(body))}) + body


def odd_requests(client):
    """Bytes that a client may send, and the status that they are answered with."""
    head = client.head
    place = client.path.encode()
    return [
        (head(headers={"Content-Length": "9" * 5001}), 413),
        (head(headers={"Content-Length": "361072"}), 413),
        (head(headers={"Content-Length": ["0", "0"]}), 400),
        (head(headers={"Content-Length": "-1"}), 400),
        (head(headers={"Content-Length": "1_0"}), 400),
        (head("compare", "POST", {"Transfer-Encoding": "chunked"}), 411),
        (head(headers={"Host": [client.host, client.host]}), 400),
        (head(headers={"X": "x" * 70_000}), 431),
        (b"GET " + place + b"\r\n\r\n", 400),
        (b"\r\n\r\n\r\n\r\n", 400),
        (b"\xff\xfe\xfd " * 3 + b"\r\n\r\n", 400),
        (b"GET " + place + b" HTTP/1.1\r\nno header\r\n\r\n", 400),
        (head(method="PATCH"), 405),
        (b"GET " + place + b"\xff\xfe.js HTTP/1.1\r\nHost: " + client.host.encode() + b"\r\n\r\n", 404),
        (head("%FF%FE%00.js"), 404),
        (head("a" * 5000 + ".js"), 404),
        (head("session", "POST"), 404),
        (head("session?page=" + "a" * 81, headers={"Upgrade": "websocket", "Sec-WebSocket-Key": "a",
                                                   "Origin": f"http://{client.host}"}), 400),
        (head("wave?from=0&to=1" + "0" * 26), 409),
        (head("film?from=0&to=1" + "0" * 26), 409),
        (head("film?from=0&to=1" + "0" * 5001), 409),
        (head("wave?from=5&to=4"), 409),
        (head("wave?from=0&to=1e999"), 409),
        (bodied("POST", "watches", b'[{"address": 1e999, "width": 1, "name": ""}]', client), 409),
        (bodied("POST", "watches", b'[{"width": 1, "address": ' + b"9" * 5001 + b"}]", client), 409),
        (bodied("POST", "watches", b'[{"address": 65535, "width": 2, "name": ""}]', client), 409),
        (bodied("POST", "watches", b"[" * 100_000, client), 409),
        (bodied("POST", "watches", b"\xff\xfe", client), 409),
        (bodied("POST", "watches", b'{"address": 0}', client), 409),
        (bodied("POST", "compare", b"W4RC" + bytes(50), client), 409),
        (head("branches?name=" + "%F0%9F%98%80" * 5, "POST"), 409),
        (head("branches?name=" + "%F0%90%80%80" * 80, "POST"), 409),
        (head("branches?name=%FF%00", "POST"), 409),
        (head("branches?name=..%2Fx", "POST"), 409),
        (head("branch?name=" + "a" * 5000), 409),
    ]


def test_odd_requests_have_an_answer():
    with WatchedStudio() as studio:
        client = Client(studio)
        for data, wanted in odd_requests(client):
            status, _, text = client.answer(data)
            assert status == wanted and 0 < len(text) < 1000, (data[:200], status, text[:200])
        assert client.ask("watches") == (200, b"[]")
        assert studio.said() == ""


def test_who_asks_is_judged_before_the_body_comes():
    """Each head names a body that never comes."""
    with WatchedStudio() as studio:
        client = Client(studio)
        rows = [({"Host": "evil.example"}, None, 403), ({"Origin": "http://evil.example"}, None, 403),
                ({}, "/" + "A" * 22 + "/compare", 403), ({"Content-Length": "400000"}, None, 413)]
        for headers, path, wanted in rows:
            with client.connect() as connection:
                connection.settimeout(SOON / 4)
                headers = {"Content-Length": "300000", **headers}
                connection.sendall(client.head("compare", "POST", headers, path))
                assert read_answer(connection)[0] == wanted, headers


def test_a_refused_body_leaves_the_answer_readable():
    with WatchedStudio() as studio:
        client = Client(studio)
        body = bytes(3_000_000)
        status, _, text = client.answer(bodied("POST", "compare", body, client))
        assert status == 413 and b"361071 bytes" in text


def test_the_policy_of_the_page():
    with WatchedStudio() as studio:
        client = Client(studio)
        status, headers, _ = client.answer(client.head())
        policy = [part.strip() for part in headers["Content-Security-Policy"].split(";")]
        assert status == 200
        assert {"base-uri 'none'", "form-action 'self'", "frame-ancestors 'none'"} <= set(policy)


def test_connections_have_a_limit():
    with WatchedStudio() as studio:
        client = Client(studio)
        with client.open_page() as page:
            page.greeting()
            idle = [client.connect() for _ in range(63)]
            wait_until(lambda: is_closed_at_once(client), "a connection too many is closed", SOON)
            assert page.ask("state 0").startswith(b"state 0 of 240")
            for connection in idle:
                connection.close()
            wait_until(lambda: answers(client), "there is room again", SOON)
        assert studio.said() == ""


def is_closed_at_once(client):
    """Whether a new connection is closed before it asks for anything."""
    with client.connect() as connection:
        connection.settimeout(1)
        try:
            return connection.recv(1) == b""
        except ConnectionError:
            return True
        except socket.timeout:
            return False


def answers(client):
    """Whether a request is answered."""
    try:
        return client.ask("watches")[0] == 200
    except (OSError, EOFError, ValueError):
        return False


def test_a_lack_of_descriptors_is_no_flood():
    with WatchedStudio("ulimit -n 40") as studio:
        client = Client(studio)
        idle = [client.connect() for _ in range(60)]
        time.sleep(3)
        for connection in idle:
            connection.close()
        wait_until(lambda: answers(client), "it goes on when there are descriptors", SOON)
        assert len(studio.said()) < 1000


@contextlib.contextmanager
def short_times():
    """A minute, and ten seconds, are long for a test."""
    times = http_request.IDLE, http_request.BEGUN
    assert times == (60, 10)
    http_request.IDLE, http_request.BEGUN = 0.1, 0.05
    try:
        yield
    finally:
        http_request.IDLE, http_request.BEGUN = times


def test_who_does_not_ask_in_time_is_left():
    """One that asks for nothing gets nothing, and one that has begun is told."""
    async def read(data):
        reader = asyncio.StreamReader()
        reader.feed_data(data)
        return await asyncio.wait_for(http_request.read_request(reader, lambda request: None), SOON)
    with short_times():
        assert asyncio.run(read(b"")) is None
        for begun in (b"G", b"GET / HTTP/1.1\r\n", b"POST / HTTP/1.1\r\nContent-Length: 9\r\n\r\nW4RC"):
            try:
                asyncio.run(read(begun))
            except http_request.BadRequest as fault:
                assert fault.status == 408
                continue
            raise AssertionError(begun)


# What isn't WebSocket, and the code with which the connection is closed.
WRONG_FRAMES = [
    (b"\x81\x02ab", 1002),
    (masked_frame(b"state 0", 0xC1), 1002),
    (masked_frame(b"state 0", 0x83), 1002),
    (masked_frame(b"state 0", 0x80), 1002),
    (masked_frame(b"a", 0x01) + masked_frame(b"b", 0x81), 1002),
    (masked_frame(b"x" * 126, 0x89), 1002),
    (masked_frame(b"x", 0x09), 1002),
    (masked_frame(b"state 0", 0x82), 1003),
    (masked_frame(b"\xff\xfe"), 1007),
    (struct.pack("!BBQ", 0x81, 0xFF, 1 << 63) + MASK, 1009),
    (struct.pack("!BBQ", 0x81, 0xFF, (1 << 22) + 1) + MASK, 1009),
    (masked_frame(b" " * (1 << 21), 0x01) + masked_frame(b" " * (1 << 21), 0x00)
     + struct.pack("!BB", 0x80, 0x81) + MASK, 1009),
]


def test_wrong_frames_end_only_their_connection():
    with WatchedStudio() as studio:
        client = Client(studio)
        for data, code in WRONG_FRAMES:
            with client.open_page() as page:
                page.greeting()
                page.connection.sendall(data)
                assert page.closing_code() == code, (data[:20], code)
        with client.open_page() as page:
            page.greeting()
            assert page.ask("state 0").startswith(b"state 0 of 240")
        assert studio.said() == ""


def test_a_message_of_many_orders_leaves_room_for_others():
    """The save that another request needs isn't behind all of them, and neither is the end."""
    count = 1 << 20
    with WatchedStudio() as studio:
        client = Client(studio)
        page = client.open_page()
        page.greeting()
        received = []
        reading = threading.Thread(target=count_bytes, args=(page.connection, received))
        reading.start()
        page.send("\n" * (count - 1))
        wait_until(lambda: received, "the first answers come")
        status, _ = client.ask("recording")
        answered = sum(received) // len(b"\x81\x03end")
        assert status == 200 and answered < count / 2, answered
        studio.process.terminate()
        assert studio.process.wait(SOON) == 0
        reading.join()
        page.close()
        assert studio.said() == ""


def count_bytes(connection, received):
    """Reads all that comes."""
    try:
        while data := connection.recv(1 << 16):
            received.append(len(data))
    except OSError:
        pass


MORE_THAN_FITS = "\n".join(["film 1 240 1"] * 8)  # 37 megabytes of images
EDIT = f"set 60 {RIGHT} 0 0 0 32767 32767 0"
EDITED = recording(FRAMES[:60] + [frame(RIGHT)] + FRAMES[61:])


def test_a_page_that_does_not_read_is_dropped():
    with WatchedStudio() as studio:
        client = Client(studio)
        with client.open_page("frozen") as frozen:
            frozen.greeting()
            frozen.send(MORE_THAN_FITS)
            assert client.ask("branches", "POST", name="meanwhile")[0] == 200
            assert client.list() >= {"meanwhile"}
            with client.open_page("other") as page:
                assert page.greeting()["last_page"] == "frozen"
                assert page.ask(EDIT) == b"" and page.ask("save") == b""
        assert studio.recording.read_bytes() == EDITED
        assert studio.said() == ""


def test_a_page_that_does_not_read_does_not_hold_up_the_end():
    with WatchedStudio() as studio, Client(studio).open_page() as frozen:
        frozen.greeting()
        assert frozen.ask(EDIT) == b""
        frozen.send(MORE_THAN_FITS)
        time.sleep(1)
        studio.process.terminate()
        assert studio.process.wait(SOON) == 0
        assert studio.recording.read_bytes() == EDITED
        assert studio.said() == ""


def test_a_page_that_ends_in_order_is_told():
    with WatchedStudio() as studio, Client(studio).open_page() as page:
        page.greeting()
        studio.process.terminate()
        assert page.closing_code() == 1001 and studio.process.wait(SOON) == 0


def test_each_page_is_told_which_was_there_last():
    with WatchedStudio() as studio:
        client = Client(studio)
        rows = [("one", None), ("two", "one"), ("two", "two"), (None, "two"), ("one", None)]
        for page_id, last in rows:
            with client.open_page(page_id) as page:
                assert page.greeting()["last_page"] == last, (page_id, last)


def test_a_page_that_comes_again_takes_its_own_place():
    """Its earlier connection looks open, as one does whose other end is lost."""
    with WatchedStudio() as studio:
        client = Client(studio)
        with client.open_page("one") as lost:
            lost.greeting()
            with client.open_page("two") as other:
                assert other.receive() == (TEXT, b"in use")
            with client.open_page("one") as page:
                assert page.greeting()["last_page"] == "one"
                assert page.ask("state 0").startswith(b"state 0 of 240")
                try:
                    assert lost.closing_code() is None
                except ConnectionError:
                    pass


def slow_studio(frames):
    """A studio on a recording whose frames take a second each."""
    studio = WatchedStudio(cart=ENDLESS, recording=None)
    studio.recording.write_bytes(recording([frame(0, reset=True)] * frames, ENDLESS, SLOW_BUDGET))
    return studio


def test_a_page_that_goes_leaves_its_orders():
    """While the program computes it sends more than the session takes; another page comes at once."""
    edits = [f"set {number} {number % 256} 0 0 0 0 0 0" for number in range(10)] * 200
    with slow_studio(10) as studio:
        client = Client(studio)
        with client.open_page() as page:
            page.greeting()
            page.send("state 3")
            page.send("\n".join(edits))
        with client.open_page() as page:
            page.greeting()
            assert page.ask("save") == b""
        wanted = [frame(number, mouse=(0, 0, 0)) for number in range(10)]
        assert studio.recording.read_bytes() == recording(wanted, ENDLESS, SLOW_BUDGET)


def test_a_page_that_sends_more_than_is_taken_waits():
    """What the server has of it is bounded, while the program computes."""
    megabyte = masked_frame(b"#" * (1 << 20))
    with slow_studio(120) as studio, Client(studio).open_page() as page:
        page.greeting()
        page.send("state 100")
        page.connection.settimeout(2)
        try:
            for _ in range(40):
                page.connection.sendall(megabyte)
            raise AssertionError("nothing held it up")
        except socket.timeout:
            pass
        finally:
            end_at_once(studio)


def end_at_once(studio):
    """Ends a studio whose program computes for long."""
    def is_ended():
        for process in studio.children("serve"):
            with contextlib.suppress(ProcessLookupError):
                os.kill(process, signal.SIGKILL)
        return studio.process.poll() is not None
    studio.process.terminate()
    wait_until(is_ended, "the studio ends", SOON)


def test_what_is_computed_for_the_page_ends_with_the_studio():
    with slow_studio(120) as studio:
        client = Client(studio)
        asked = threading.Thread(target=answers_to, args=(client, "film?from=0&to=120"))
        asked.start()
        wait_until(lambda: studio.children("wave"), "the sound is computed", SOON)
        [process] = studio.children("wave")
        assert ignores(process, signal.SIGXFSZ)
        studio.process.terminate()
        assert studio.process.wait(SOON) == 0
        assert not os.path.exists(f"/proc/{process}")
        asked.join()
        assert studio.said() == ""


def test_a_comparison_ends_with_the_studio():
    with slow_studio(120) as studio:
        client = Client(studio)
        body = studio.recording.read_bytes()
        asked = threading.Thread(target=answers_to, args=(client, "compare", "POST", body))
        asked.start()
        wait_until(lambda: studio.children("compare"), "it is compared", SOON)
        [process] = studio.children("compare")
        assert ignores(process, signal.SIGXFSZ)
        studio.process.terminate()
        assert studio.process.wait(SOON) == 0
        assert not os.path.exists(f"/proc/{process}")
        asked.join()


def answers_to(client, *words):
    """Asks, and drops the answer, which may not come."""
    try:
        client.ask(*words)
    except (OSError, EOFError, ValueError):
        pass


def ignores(process, number):
    """Whether a process ignores a signal."""
    with open(f"/proc/{process}/status", encoding="ascii") as lines:
        [mask] = [int(line.split()[1], 16) for line in lines if line.startswith("SigIgn:")]
    return bool(mask >> number - 1 & 1)
