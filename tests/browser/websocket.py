"""The client's end of a WebSocket: its handshake, and texts that go out and come in as frames."""

import base64
import os
import socket
import struct
import time

GOES_ON, TEXT, CLOSE, PING, PONG = 0, 1, 8, 9, 10
LAST, MASKED = 0x80, 0x80
READ_AT_ONCE = 1 << 16


class Closed(Exception):
    """The other end is gone, or was never one."""


def masked(data, key):
    """A client sends every byte changed by a key of four bytes, as the protocol wants it."""
    stretched = (key * (len(data) // 4 + 1))[: len(data)]
    return (int.from_bytes(data, "big") ^ int.from_bytes(stretched, "big")).to_bytes(len(data), "big")


def frame(kind, data):
    """One frame that holds all of the data."""
    head, key = bytes([LAST | kind]), os.urandom(4)
    if len(data) < 126:
        head += bytes([MASKED | len(data)])
    elif len(data) < 1 << 16:
        head += struct.pack(">BH", MASKED | 126, len(data))
    else:
        head += struct.pack(">BQ", MASKED | 127, len(data))
    return head + key + masked(data, key)


def first_frame(data):
    """The frame at the front of some bytes: whether it is its text's last, its kind, its contents and its end; None where it has not come whole."""
    if len(data) < 2:
        return None
    length, at = data[1] & 127, 2
    if length > 125:
        wide = 2 if length == 126 else 8
        length, at = int.from_bytes(data[2 : 2 + wide], "big"), 2 + wide
    if len(data) < at + length:
        return None
    return bool(data[0] & LAST), data[0] & 15, bytes(data[at : at + length]), at + length


class WebSocket:
    """A connection; what has come of it and is not taken yet; and the parts of a text that goes on."""

    def __init__(self, port, path, seconds=20):
        self.socket = socket.create_connection(("127.0.0.1", port), seconds)
        self.come, self.parts = bytearray(), []
        self.shake_hands(port, path, time.monotonic() + seconds)

    def shake_hands(self, port, path, deadline):
        key = base64.b64encode(os.urandom(16)).decode("ascii")
        lines = ["GET %s HTTP/1.1" % path, "Host: 127.0.0.1:%d" % port, "Upgrade: websocket", "Connection: Upgrade"]
        lines += ["Sec-WebSocket-Version: 13", "Sec-WebSocket-Key: %s" % key, "", ""]
        self.socket.sendall("\r\n".join(lines).encode("ascii"))
        while b"\r\n\r\n" not in self.come:
            if not self.read(deadline):
                raise Closed("no handshake came")
        head, _, rest = bytes(self.come).partition(b"\r\n\r\n")
        if b" 101 " not in head.split(b"\r\n")[0] + b" ":
            raise Closed("the handshake is refused: %r" % head[:200])
        self.come = bytearray(rest)

    def read(self, deadline):
        """Waits for more bytes; whether some came in time."""
        left = deadline - time.monotonic()
        if left <= 0:
            return False
        self.socket.settimeout(left)
        try:
            more = self.socket.recv(READ_AT_ONCE)
        except TimeoutError:
            return False
        if not more:
            raise Closed("the connection has ended")
        self.come += more
        return True

    def send(self, text):
        self.socket.settimeout(None)
        self.socket.sendall(frame(TEXT, text.encode("utf-8")))

    def receive(self, deadline):
        """The next text, or None where none has come in time."""
        while True:
            found = first_frame(self.come)
            if not found:
                if not self.read(deadline):
                    return None
                continue
            last, kind, data, end = found
            del self.come[:end]
            if kind == CLOSE:
                raise Closed("the other end has closed")
            if kind == PING:
                self.socket.sendall(frame(PONG, data))
            if kind in (TEXT, GOES_ON):
                self.parts.append(data)
                if last:
                    text, self.parts = b"".join(self.parts), []
                    return text.decode("utf-8")

    def close(self):
        self.socket.close()
