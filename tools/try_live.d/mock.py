#!/usr/bin/env python3
"""Serves the live page a session that is made up, to try the page without a recorder.

    tools/try_live.d/mock.py PORT [--size WIDTHxHEIGHT] [--past SECONDS] [--ended] [--slow]

PORT 0 takes a free one. Prints `serving http://127.0.0.1:PORT/`, and serves until it is stopped. The
session has random rectangles in all four encodings, and grows by ten updates a second. It began SECONDS
ago (400), with five updates a second and a pause of 40 seconds after a quarter of that time. Streams
are cut at random, in pieces of 1 to 32,768 bytes, a twentieth of a second apart if they are slow.

What tries the page steers it by GET, and each is answered in JSON:

    /mock/picture?message=N           the colours of the screen after N messages, as hexadecimal digits
    /mock/time?message=N              when message N came, in milliseconds
    /mock/log                         what came: connections, orders, requests, and how many answers
    /mock/quiet, /mock/busy           the host sends nothing; it sends again
    /mock/end                         the host ends
    /mock/lose?part=PATH&times=N      a part of the page isn't answered N times, but closed at once
    /mock/fail, /mock/mend            what came when is answered by a web server between; it isn't any more
    /mock/later?seconds=S             what came when is told of a recording that is S seconds longer
    /mock/crowd?seconds=S             who asks what came when isn't answered for S seconds, but closed at once
    /mock/search?seconds=S            for S seconds what is to be shown next is searched for: no updates
    /mock/cut?seconds=S               each connection breaks off, and none is taken for S seconds
    /mock/late?seconds=S              viewers are greeted S seconds after they have come
    /mock/stall?seconds=S             nothing is answered, and nothing breaks off, for S seconds
    /mock/close?code=C&reason=TEXT    the viewers are closed
    /mock/refuse?code=C&reason=TEXT   viewers are turned away from now on; until /mock/admit
    /mock/deny                        their upgrades are answered by 403; until /mock/admit
    /mock/restart?seconds=S           the recorder ends as one that is told to, and is back after S seconds
"""
import argparse
import base64
import bisect
import hashlib
import http.server
import importlib.machinery
import importlib.util
import json
import os
import random
import re
import socket
import socketserver
import struct
import sys
import threading
import time
import urllib.parse

HERE = os.path.dirname(os.path.realpath(__file__))
ROOT = f"{HERE}/../.."
LOADER = importlib.machinery.SourceFileLoader("try_page", f"{ROOT}/tools/try_page")
try_page = importlib.util.module_from_spec(importlib.util.spec_from_loader("try_page", LOADER))
LOADER.exec_module(try_page)

POLICY = "default-src 'self'; img-src 'self' blob: data:; frame-ancestors 'none'"
# What is served: the constants of these files.
FILES = {"/": ("live_page/src/page.rt", "PAGE", "text/html; charset=utf-8"),
         "/painter.js": ("screen_script/src/painter.rt", "PAINTER", "text/javascript; charset=utf-8"),
         "/live.js": ("live_page/src/page.rt", "SCRIPT", "text/javascript; charset=utf-8"),
         "/live.css": ("live_page/src/page.rt", "STYLE", "text/css; charset=utf-8")}
RATE, PAST_RATE = 10, 5
BLOCK, KEY, MOST_STRETCHES, MOST_MERGED = 4, 32, 100, 64
# How often is told by itself how the session stands, in seconds: at most, and at least.
NEWS, PULSE = 1, 5
NAME = "<b>&name"
# What the page must ask for: 32 bits, the lowest byte first, red in the lowest one.
FORMAT = bytes([0, 0, 0, 0, 32, 24, 0, 1, 0, 255, 0, 255, 0, 255, 0, 8, 16, 0, 0, 0])


# Frames of a WebSocket (RFC 6455, section 5.2).

TEXT, BINARY, CLOSE, PING, PONG = 1, 2, 8, 9, 10


def frame(kind, payload, is_masked=False):
    """One whole frame."""
    flag, length = 0x80 if is_masked else 0, len(payload)
    mask = random.randbytes(4) if is_masked else b""
    if length < 126:
        head = struct.pack(">BB", 0x80 | kind, flag | length)
    elif length < 1 << 16:
        head = struct.pack(">BBH", 0x80 | kind, flag | 126, length)
    else:
        head = struct.pack(">BBQ", 0x80 | kind, flag | 127, length)
    return head + mask + (masked(payload, mask) if is_masked else payload)


def masked(payload, mask):
    long_mask = (mask * (len(payload) // 4 + 1))[:len(payload)]
    return (int.from_bytes(payload, "big") ^ int.from_bytes(long_mask, "big")).to_bytes(len(payload), "big")


def exactly(stream, count):
    taken = stream.read(count)
    if len(taken) < count:
        raise ConnectionError("the stream has ended")
    return taken


def read_frame(stream):
    """The kind and the payload of the next message, of as many frames as it has."""
    first, second = exactly(stream, 2)
    length = second & 127
    if length > 125:
        length = int.from_bytes(exactly(stream, 2 if length == 126 else 8), "big")
    mask = exactly(stream, 4) if second & 128 else b"\0\0\0\0"
    payload = masked(exactly(stream, length), mask)
    return first & 15, payload if first & 0x80 else payload + read_frame(stream)[1]


# Pictures: rows of four bytes a pixel, the last of which says nothing.

def fill(picture, wide, x, y, width, height, pixel):
    for row in range(y, y + height):
        start = 4 * (row * wide + x)
        picture[start:start + 4 * width] = pixel * width


class Bytes:
    def __init__(self, data):
        self.data, self.offset = data, 0

    def take(self, count):
        self.offset += count
        return self.data[self.offset - count:self.offset]

    def numbers(self, form):
        return struct.unpack(form, self.take(struct.calcsize(form)))


def row_of(picture, wide, x, y, width):
    start = 4 * (y * wide + x)
    return bytes(picture[start:start + 4 * width])


def put(picture, wide, x, y, width, height, data):
    for row in range(height):
        start = 4 * ((y + row) * wide + x)
        picture[start:start + 4 * width] = data[4 * width * row:4 * width * (row + 1)]


def paint_hextile(picture, wide, x, y, width, height, text):
    background = foreground = bytes(4)
    for top in range(y, y + height, 16):
        for left in range(x, x + width, 16):
            tile = left, top, min(16, x + width - left), min(16, y + height - top)
            mask, = text.take(1)
            if mask & 1:
                put(picture, wide, *tile, text.take(4 * tile[2] * tile[3]))
                continue
            background = text.take(4) if mask & 2 else background
            foreground = text.take(4) if mask & 4 else foreground
            fill(picture, wide, *tile, background)
            for _ in range(text.take(1)[0] if mask & 8 else 0):
                pixel = text.take(4) if mask & 16 else foreground
                corner, size = text.take(2)
                fill(picture, wide, left + (corner >> 4), top + (corner & 15), (size >> 4) + 1, (size & 15) + 1, pixel)


def paint(picture, wide, update):
    """Paints an update (RFC 6143, sections 7.6.1 and 7.7)."""
    text = Bytes(update)
    _, count = text.numbers(">HH")
    for _ in range(count):
        x, y, width, height, encoding = text.numbers(">HHHHi")
        if encoding == 0:
            put(picture, wide, x, y, width, height, text.take(4 * width * height))
        elif encoding == 1:
            from_x, from_y = text.numbers(">HH")
            rows = [row_of(picture, wide, from_x, from_y + row, width) for row in range(height)]
            put(picture, wide, x, y, width, height, b"".join(rows))
        elif encoding == 2:
            parts, = text.numbers(">I")
            fill(picture, wide, x, y, width, height, text.take(4))
            for _ in range(parts):
                pixel = text.take(4)
                left, top, part_width, part_height = text.numbers(">HHHH")
                fill(picture, wide, x + left, y + top, part_width, part_height, pixel)
        else:
            paint_hextile(picture, wide, x, y, width, height, text)


def whole(picture, wide, high):
    """An update of the whole screen, in any of three forms."""
    def part(x, y, width, height):
        return b"".join(row_of(picture, wide, x, y + row, width) for row in range(height))
    tiles = [(x, y, min(16, wide - x), min(16, high - y)) for y in range(0, high, 16) for x in range(0, wide, 16)]
    form = random.randrange(3)
    if form == 0:
        rectangles = [struct.pack(">HHHHi", 0, 0, wide, high, 0) + bytes(picture)]
    elif form == 1:
        rectangles = [struct.pack(">HHHHi", *tile, 0) + part(*tile) for tile in tiles]
    else:
        rectangles = [struct.pack(">HHHHi", 0, 0, wide, high, 5) + b"".join(b"\1" + part(*tile) for tile in tiles)]
    return struct.pack(">HH", 0, len(rectangles)) + b"".join(rectangles)


class Recording:
    """What was recorded: messages with their times in milliseconds, and each one's picture."""

    def __init__(self, wide, high):
        self.wide, self.high = wide, high
        self.times, self.updates, self.keys = [], [], [bytes(4 * wide * high)]
        self.latest = bytearray(4 * wide * high)
        self.changed = threading.Condition()
        self.has_ended = False
        self.viewers = set()

    def add(self, moment):
        """One more message: a whole screen first, then rectangles in a part of it."""
        update = self.update() if self.times else whole(self.latest, self.wide, self.high)
        with self.changed:
            paint(self.latest, self.wide, update)
            self.times.append(moment)
            self.updates.append(update)
            if len(self.times) % KEY == 0:
                self.keys.append(bytes(self.latest))
            self.changed.notify_all()

    def update(self):
        left, top = random.randint(0, self.wide - 64), random.randint(0, self.high - 48)
        rectangles = []
        for _ in range(random.randint(1, 3)):
            x, y, width, height = try_page.part(64, 48)
            encoding, body = random.choice(((0, try_page.raw), (1, None), (2, try_page.rre), (5, try_page.hextile)))
            if encoding == 1:
                data = struct.pack(">HH", random.randint(0, self.wide - width), random.randint(0, self.high - height))
            else:
                data = body(width, height)
            rectangles.append(struct.pack(">HHHHi", left + x, top + y, width, height, encoding) + data)
        return struct.pack(">HH", 0, len(rectangles)) + b"".join(rectangles)

    def length(self):
        return self.times[-1]

    def count_at(self, moment):
        """How many messages are shown at a moment: the first one at any."""
        return max(1, bisect.bisect_right(self.times, moment))

    def picture(self, count):
        picture = bytearray(self.keys[count // KEY])
        for update in self.updates[count // KEY * KEY:count]:
            paint(picture, self.wide, update)
        return picture

    def told(self, block, every):
        """What `/times` answers of a block and those after it, in windows of so many milliseconds if
        there are any."""
        stretches, last = [], -(-len(self.times) // BLOCK)
        while block < last:
            message = block * BLOCK
            moment, count = self.times[message], min(BLOCK, len(self.times) - message)
            if every and stretches and stretches[-1]["time"] // every == moment // every:
                stretches[-1]["updates"] += count
            elif len(stretches) == MOST_STRETCHES:
                break
            else:
                stretches.append({"time": moment, "message": message, "block": block, "updates": count})
            block += 1
        return {"width": self.wide, "height": self.high, "messages": len(self.times), "length": self.length(),
                "stretches": stretches, "next": block}


class World:
    """The recording, and what befalls the connections."""

    def __init__(self, recording, is_slow):
        self.recording, self.is_slow = recording, is_slow
        self.is_quiet = False
        self.cut_until = self.stalled_until = self.crowded_until = self.searching_until = 0
        self.refusal, self.is_denied = None, False
        self.losses, self.is_failing, self.later, self.greeting_after = {}, False, 0, 0
        self.watched, self.orders, self.requests, self.answers, self.looks = [], [], 0, 0, 0

    def remember(self, seconds, is_ended):
        moment = 0
        while moment < 1000 * seconds:
            self.recording.add(moment)
            is_pause = moment == 250 * seconds // 200 * 200
            moment += 40000 if is_pause else 1000 // PAST_RATE
        self.recording.has_ended = is_ended

    def grow(self):
        began = time.monotonic() - self.recording.length() / 1000
        while not self.recording.has_ended:
            time.sleep(1 / RATE)
            if not self.is_quiet and not self.recording.has_ended:
                self.recording.add(int(1000 * (time.monotonic() - began)))

    def come_back(self):
        """Once it may be reached again, it goes on."""
        time.sleep(self.cut_until - time.monotonic())
        self.recording.has_ended = False
        self.grow()

    def wait(self):
        """While it is stalled, nothing goes on."""
        while time.monotonic() < self.stalled_until:
            time.sleep(0.05)


class Viewer:
    """One viewer's connection. `serve` writes, and a thread reads."""

    def __init__(self, world, connection, stream, asked):
        self.world, self.recording, self.connection, self.stream = world, world.recording, connection, stream
        self.position, self.needs_whole, self.is_requested = 0, True, False
        self.pace, self.longest_pause, self.orders = 1.0, None, 0
        self.told, self.told_at = None, 0
        self.mode, self.time, self.begun = "live", 0, time.monotonic()
        self.each_until = 0
        self.closing, self.is_gone, self.input = None, False, b""
        if "message" in asked:
            self.mode, self.position, self.each_until = "message", int(asked["message"]), len(self.recording.times)
        elif "pace" in asked:
            self.pace = int(asked["pace"]) / 1000
            self.longest_pause = int(asked["longest-pause"]) if "longest-pause" in asked else None
            self.begin("played", int(asked["at"]))
        elif "at" in asked:
            self.begin("still", int(asked["at"]))
        else:
            self.time = self.recording.length()

    # What is shown next. Its time is that at which it begins, and then that of the last message.

    def begin(self, mode, moment):
        self.mode, self.time, self.needs_whole = mode, moment, True
        self.origin, self.begun = moment, time.monotonic()

    def now(self):
        return self.origin + 1000 * (time.monotonic() - self.begun) * self.pace

    def skip(self):
        """Ends a pause that has lasted long enough."""
        times, now = self.recording.times, self.now()
        is_skipped = self.longest_pause is not None and 0 < self.position < len(times)
        if is_skipped and times[self.position] > now > times[self.position - 1] + self.longest_pause:
            self.origin, self.begun = times[self.position], time.monotonic()

    def due(self):
        """How many messages are to be shown, or None."""
        now = time.monotonic()
        if not self.is_requested or now < max(self.world.stalled_until, self.world.searching_until):
            return None
        count = self.count()
        return count if self.needs_whole or self.position < count <= len(self.recording.times) else None

    def count(self):
        if self.mode == "message" and (self.needs_whole or self.position < self.each_until):
            return self.position + (0 if self.needs_whole else 1)
        if self.mode in ("live", "message"):
            return len(self.recording.times)
        if self.mode == "still":
            return self.recording.count_at(self.time) if self.needs_whole else self.position
        self.skip()
        return self.recording.count_at(self.now())

    def answer(self, count):
        """The update that shows so many messages."""
        if self.needs_whole or count - self.position > MOST_MERGED:
            return whole(self.recording.picture(count), self.recording.wide, self.recording.high)
        updates = self.recording.updates[self.position:count]
        rectangles = sum(struct.unpack(">H", update[2:4])[0] for update in updates)
        return struct.pack(">HH", 0, rectangles) + b"".join(update[4:] for update in updates)

    def news(self):
        return self.recording.length(), len(self.recording.viewers), self.recording.has_ended

    def status(self):
        self.told, self.told_at = self.news(), time.monotonic()
        return json.dumps({"message": self.position, "time": self.time, "length": self.told[0], "watching": self.told[1],
                           "orders": self.orders, "ended": self.told[2]}, separators=(",", ":")).encode()

    def is_news(self):
        """Whether it is told how the session stands, without an update."""
        if self.told is None:
            return False
        return time.monotonic() > self.told_at + (PULSE if self.news() == self.told else NEWS)

    def go_to(self, count):
        self.time = self.recording.times[max(count, 1) - 1]
        self.position, self.needs_whole, self.is_requested = count, False, False

    # Writing.

    def write(self, kind, payload):
        self.connection.sendall(frame(kind, payload))

    def write_pieces(self, data):
        while data:
            size = random.choice((1, 3, 50, 1000, 32768, 32768))
            self.write(BINARY, data[:size])
            data = data[size:]
            if self.world.is_slow:
                time.sleep(0.05)

    def write_close(self, code, reason):
        self.write(CLOSE, struct.pack(">H", code) + reason.encode())

    def write_due(self):
        with self.recording.changed:
            count = self.due()
            if count is None and (not self.is_news() or time.monotonic() < self.world.stalled_until):
                self.recording.changed.wait(0.02)
                return
            update = None if count is None else self.answer(count)
            if count is not None:
                self.go_to(count)
                self.world.answers += 1
            status = self.status()
        self.write(TEXT, status)
        if update:
            self.write_pieces(update)

    def hear_version(self):
        self.write_pieces(b"RFB 003.008\n")
        if self.take(12) != b"RFB 003.008\n":
            raise ValueError("another version")

    def turn_away(self, code, reason):
        """By no security type and a reason (RFC 6143, section 7.1.2), and by how it is closed."""
        self.hear_version()
        self.write_pieces(b"\0" + struct.pack(">I", len(reason)) + reason.encode())
        self.write_close(code, reason)
        time.sleep(0.3)

    def greet(self):
        time.sleep(self.world.greeting_after)
        self.hear_version()
        self.write_pieces(b"\1\1")
        self.take(1)
        self.write_pieces(bytes(4))
        self.take(1)
        size = struct.pack(">HH", self.recording.wide, self.recording.high)
        name = NAME.encode()
        self.write_pieces(size + FORMAT[4:] + struct.pack(">I", len(name)) + name)

    def serve(self):
        try:
            self.greet()
            threading.Thread(target=self.listen, daemon=True).start()
            while not self.is_gone and not self.closing:
                self.write_due()
            if self.closing:
                self.write_close(*self.closing)
                time.sleep(0.3)
        except (ConnectionError, OSError):
            pass

    # Reading.

    def take(self, count):
        """The next bytes of the page's stream; orders in between are obeyed."""
        while len(self.input) < count:
            kind, payload = read_frame(self.stream)
            if kind == BINARY:
                self.input += payload
            elif kind == TEXT:
                self.obey(json.loads(payload))
            elif kind == CLOSE:
                raise ConnectionError("closed")
        taken, self.input = self.input[:count], self.input[count:]
        return taken

    def listen(self):
        try:
            while True:
                self.read_message(self.take(1)[0])
        except (ConnectionError, OSError):
            self.is_gone = True
        except (ValueError, KeyError, AssertionError) as fault:
            self.closing = 1002, str(fault)

    def read_message(self, kind):
        if kind == 0:
            assert bytes([kind]) + self.take(19) == FORMAT, "another pixel format"
        elif kind == 2:
            count, = struct.unpack(">xH", self.take(3))
            assert struct.unpack(f">{count}i", self.take(4 * count)) == (1, 5, 2, 0), "other encodings"
        elif kind == 3:
            is_incremental, *area = struct.unpack(">BHHHH", self.take(9))
            assert area == [0, 0, self.recording.wide, self.recording.high], "another area"
            with self.recording.changed:
                self.world.requests += 1
                self.needs_whole = self.needs_whole or not is_incremental
                self.is_requested = True
                self.recording.changed.notify_all()
        else:
            raise ValueError(f"unknown message {kind}")

    def obey(self, told):
        with self.recording.changed:
            self.world.orders.append(told)
            self.orders += 1
            (name, value), = told.items()
            if name == "at":
                self.begin("still" if self.mode == "still" else "played", value)
            elif name == "message":
                self.mode, self.each_until, self.needs_whole = "message", len(self.recording.times), True
                self.position = min(value, self.each_until)
            elif name == "live":
                self.mode, self.time, self.needs_whole = "live", self.recording.length(), True
            elif name in ("pause", "pace", "longest-pause"):
                self.steer(name, value)
            else:
                raise ValueError(f"unknown order {name}")
            self.recording.changed.notify_all()

    def steer(self, name, value):
        if name == "pause" and (value or self.mode == "still"):
            self.begin("still" if value else "played", self.time)
        elif name == "pace":
            self.pace = value / 1000
        elif name == "longest-pause":
            self.longest_pause = value
        if self.mode == "played":
            self.begin("played", self.time)
        self.needs_whole = True


def constant(path, name):
    """A text of the program."""
    with open(f"{ROOT}/crates/{path}", encoding="utf-8") as file:
        return re.search(rf'pub const {name}: &str =\s*r##"(.*?)"##;', file.read(), re.DOTALL)[1]


class Handler(http.server.BaseHTTPRequestHandler):
    """Answers a request, or hands its connection to a viewer."""

    world = None

    def log_message(self, *_):
        pass

    def reply(self, data, media, status=200):
        self.send_response(status)
        self.send_header("Content-Type", media)
        self.send_header("Content-Length", str(len(data)))
        self.send_header("Cache-Control", "no-store")
        self.send_header("Content-Security-Policy", POLICY)
        self.end_headers()
        self.wfile.write(data)

    def reply_json(self, value):
        self.reply(json.dumps(value).encode(), "application/json")

    def do_GET(self):
        url = urllib.parse.urlsplit(self.path)
        asked = dict(urllib.parse.parse_qsl(url.query))
        if url.path.startswith("/mock/"):
            return self.reply_json(getattr(self, "mock_" + url.path[6:])(asked))
        self.world.wait()
        if time.monotonic() < self.world.cut_until:
            self.close_connection = True
        elif self.world.losses.get(url.path, 0) > 0:
            self.world.losses[url.path] -= 1
            self.close_connection = True
        elif url.path in FILES:
            path, name, media = FILES[url.path]
            self.reply(constant(path, name).encode(), media)
        elif url.path == "/times" and time.monotonic() < self.world.crowded_until:
            self.close_connection = True
        elif url.path == "/times" and self.world.is_failing:
            self.world.looks += 1
            self.reply(b"<!doctype html><title>502</title><h1>Bad Gateway</h1>", "text/html", 502)
        elif url.path == "/times":
            with self.world.recording.changed:
                self.world.looks += 1
                told = self.world.recording.told(int(asked["from"]), int(asked.get("every", 0)))
            self.reply_json(self.prolonged(told))
        elif url.path == "/watch":
            self.watch(url.query, asked)
        else:
            self.reply(b"there is no such page", "text/plain", 404)

    def prolonged(self, told):
        """The same of a recording with one more message, so much later."""
        if not self.world.later:
            return told
        last = {"time": told["length"] + self.world.later, "message": told["messages"], "block": told["next"], "updates": 1}
        return {**told, "length": last["time"], "messages": told["messages"] + 1, "stretches": told["stretches"] + [last],
                "next": told["next"] + 1}

    def watch(self, query, asked):
        self.world.watched.append(query)
        if self.world.is_denied:
            return self.reply(b"its login has expired", "text/plain", 403)
        key = self.headers["Sec-WebSocket-Key"] + "258EAFA5-E914-47DA-95CA-C5AB0DC85B11"
        accepted = base64.b64encode(hashlib.sha1(key.encode()).digest()).decode()
        self.connection.sendall(f"HTTP/1.1 101 Switching Protocols\r\nUpgrade: websocket\r\nConnection: Upgrade\r\n"
                                f"Sec-WebSocket-Accept: {accepted}\r\n\r\n".encode())
        self.close_connection = True
        viewer = Viewer(self.world, self.connection, self.rfile, asked)
        if viewer.position > len(viewer.recording.times):
            viewer.closing = 4004, "the recording has fewer messages"
        if refusal := self.world.refusal or viewer.closing:
            return viewer.turn_away(*refusal)
        self.world.recording.viewers.add(viewer)
        try:
            viewer.serve()
        finally:
            self.world.recording.viewers.discard(viewer)

    # What tries the page asks for.

    def mock_picture(self, asked):
        picture = self.world.recording.picture(int(asked["message"]))
        del picture[3::4]
        return picture.hex()

    def mock_time(self, asked):
        return self.world.recording.times[int(asked["message"]) - 1]

    def mock_log(self, _):
        world = self.world
        return {"watched": world.watched, "orders": world.orders, "requests": world.requests,
                "answers": world.answers, "looks": world.looks, "length": world.recording.length(), "messages": len(world.recording.times),
                "watching": len(world.recording.viewers)}

    def mock_quiet(self, _):
        self.world.is_quiet = True

    def mock_busy(self, _):
        self.world.is_quiet = False

    def mock_end(self, _):
        self.world.recording.has_ended = True

    def mock_cut(self, asked):
        self.world.cut_until = time.monotonic() + float(asked.get("seconds", 0))
        for viewer in list(self.world.recording.viewers):
            viewer.is_gone = True
            viewer.connection.shutdown(socket.SHUT_RDWR)

    def mock_lose(self, asked):
        self.world.losses[asked["part"]] = int(asked["times"])

    def mock_fail(self, _):
        self.world.is_failing = True

    def mock_mend(self, _):
        self.world.is_failing = False

    def mock_later(self, asked):
        self.world.later = 1000 * int(asked["seconds"])

    def mock_late(self, asked):
        self.world.greeting_after = float(asked["seconds"])

    def mock_crowd(self, asked):
        self.world.crowded_until = time.monotonic() + float(asked["seconds"])

    def mock_search(self, asked):
        self.world.searching_until = time.monotonic() + float(asked["seconds"])

    def mock_stall(self, asked):
        self.world.stalled_until = time.monotonic() + float(asked["seconds"])

    def mock_close(self, asked):
        for viewer in list(self.world.recording.viewers):
            viewer.closing = int(asked["code"]), asked["reason"]

    def mock_refuse(self, asked):
        self.world.refusal = int(asked["code"]), asked["reason"]

    def mock_deny(self, _):
        self.world.is_denied = True

    def mock_admit(self, _):
        self.world.refusal, self.world.is_denied = None, False

    def mock_restart(self, asked):
        self.world.recording.has_ended = True
        time.sleep(2 * NEWS)
        self.mock_close({"code": 1000, "reason": "the recorder has ended"})
        self.world.cut_until = time.monotonic() + float(asked["seconds"])
        threading.Thread(target=self.world.come_back, daemon=True).start()


class Server(socketserver.ThreadingTCPServer):
    daemon_threads = True
    allow_reuse_address = True
    request_queue_size = 64

    def handle_error(self, request, client_address):
        if not isinstance(sys.exc_info()[1], ConnectionError):
            super().handle_error(request, client_address)


def served(port, wide, high, past, is_ended, is_slow):
    """A server with its session; `serve_forever` serves."""
    world = World(Recording(wide, high), is_slow)
    world.remember(past, is_ended)
    server = Server(("127.0.0.1", port), type("OfWorld", (Handler,), {"world": world}))
    threading.Thread(target=world.grow, daemon=True).start()
    return server


def main():
    words = argparse.ArgumentParser()
    words.add_argument("port", type=int)
    words.add_argument("--size", default="64x48")
    words.add_argument("--past", type=int, default=400)
    words.add_argument("--ended", action="store_true")
    words.add_argument("--slow", action="store_true")
    given = words.parse_args()
    wide, high = map(int, given.size.split("x"))
    server = served(given.port, wide, high, given.past, given.ended, given.slow)
    print(f"serving http://127.0.0.1:{server.server_address[1]}/", flush=True)
    server.serve_forever()


if __name__ == "__main__":
    main()
