#!/usr/bin/python3
"""Prints src/clients.rt of connection_tests: what clients send on a connection, and what they are to be answered. With the name of a
folder it writes what the first one sends, and is answered, there as calls.h2 and calls.answers instead.

The first client is Debian's python3-h2 itself; it also reads the answers, and this script fails where it reads anything else than
the calls' headers, messages and trailers. The second sends what nghttp2's client does, its blocks encoded by python3-hpack and its
frames spelled by python3-hyperframe. The answers are spelled from RFC 9113, RFC 7541 (literals without an index) and gRPC over
HTTP/2.
"""
import hashlib
import pathlib
import sys

from h2.config import H2Configuration
from h2.connection import H2Connection
from h2.events import DataReceived, ResponseReceived, StreamEnded, TrailersReceived
from hpack import Encoder
from hyperframe.frame import DataFrame, HeadersFrame, PriorityFrame, SettingsFrame, WindowUpdateFrame

CAPABILITIES = "/build.bazel.remote.execution.v2.Capabilities/GetCapabilities"
BATCH = "/build.bazel.remote.execution.v2.ContentAddressableStorage/BatchUpdateBlobs"
PREFACE = b"PRI * HTTP/2.0\r\n\r\nSM\r\n\r\n"


def field(number, value):
    """A length-delimited field, or a varint below 128, of Protobuf; a length has one byte or two."""
    if isinstance(value, int):
        return bytes([number << 3, value])
    length = len(value)
    spelled = bytes([length]) if length < 128 else bytes([length & 127 | 128, length >> 7])
    return bytes([number << 3 | 2]) + spelled + value


def digest(content):
    return field(1, hashlib.sha256(content).hexdigest().encode()) + field(2, len(content))


def update(*contents):
    return b"".join(field(2, field(1, digest(content)) + field(2, content)) for content in contents)


def updated(*contents):
    return b"".join(field(1, field(1, digest(content)) + field(2, b"")) for content in contents)


# Of ServerCapabilities: the cache with SHA-256, updates of 3,670,016 bytes and symbolic links, no compression; versions 2.0 to 2.3.
CAPABLE = bytes.fromhex("0a0a0a0101208080e0012802220208022a0408021003")


def message(content):
    return b"\0" + len(content).to_bytes(4, "big") + content


def frame(kind, flags, stream, payload):
    return len(payload).to_bytes(3, "big") + bytes([kind, flags]) + stream.to_bytes(4, "big") + payload


def literal(name, value):
    return b"\0" + bytes([len(name)]) + name + bytes([len(value)]) + value


BEGUN = b"\x88\x0f\x10\x10application/grpc"
OPENED = frame(4, 0, 0, b"\0\x03\0\0\0\x64\0\x06\0\0\x40\0")
AGREED = frame(4, 1, 0, b"")


def answered(stream, asked, content):
    """The window given back, the headers, the message and the trailers."""
    return (frame(8, 0, 0, len(message(asked)).to_bytes(4, "big")) + frame(1, 4, stream, BEGUN)
            + frame(0, 0, stream, message(content)) + frame(1, 5, stream, literal(b"grpc-status", b"0")))


def request(path, *more):
    return [(":method", "POST"), (":scheme", "http"), (":authority", "localhost"), (":path", path), ("te", "trailers"),
            ("content-type", "application/grpc"), *more]


def reads(client, answer, wanted):
    """Whether the client reads these messages, in this order, with status 0."""
    got = []
    for event in client.receive_data(answer):
        if isinstance(event, ResponseReceived):
            assert dict(event.headers) == {":status": "200", "content-type": "application/grpc"}
        elif isinstance(event, DataReceived):
            got.append((event.stream_id, event.data))
        elif isinstance(event, TrailersReceived):
            assert dict(event.headers) == {"grpc-status": "0"}
    return got == [(stream, message(content)) for stream, content in wanted]


def h2_client():
    """Two calls at once, and a third that uses the header table."""
    client = H2Connection(H2Configuration(client_side=True, header_encoding="utf-8"))
    client.initiate_connection()
    client.send_headers(1, request(BATCH, ("user-agent", "python-h2")))
    client.send_headers(3, request(CAPABILITIES, ("user-agent", "python-h2")))
    client.send_data(3, message(b""), end_stream=True)
    client.send_data(1, message(update(b"abc", b"x"))[:40])
    client.send_data(1, message(update(b"abc", b"x"))[40:], end_stream=True)
    client.send_headers(5, request(CAPABILITIES, ("user-agent", "python-h2")))
    client.send_data(5, message(b""), end_stream=True)
    sent = client.data_to_send()
    whole = message(update(b"abc", b"x"))
    batch = answered(1, update(b"abc", b"x"), updated(b"abc", b"x"))[13:]
    grants = [frame(8, 0, stream, (40).to_bytes(4, "big")) for stream in (0, 1)]
    last = frame(8, 0, 0, (len(whole) - 40).to_bytes(4, "big"))
    answer = OPENED + AGREED + answered(3, b"", CAPABLE) + b"".join(grants) + last + batch + answered(5, b"", CAPABLE)
    assert reads(client, answer, [(3, CAPABLE), (1, updated(b"abc", b"x")), (5, CAPABLE)])
    return sent, answer


def nghttp2_client():
    """A window for the connection, priorities and a padded DATA, as nghttp2's client sends them."""
    encoder = Encoder()
    headers = [(":method", "POST"), (":path", CAPABILITIES), (":scheme", "http"), (":authority", "localhost"), ("accept", "*/*"),
               ("accept-encoding", "gzip, deflate"), ("user-agent", "nghttp2/1.59.0"), ("content-type", "application/grpc"),
               ("content-length", "5"), ("te", "trailers")]
    frames = [SettingsFrame(0, settings={3: 100, 4: 65535}), WindowUpdateFrame(0, window_increment=1 << 20),
              PriorityFrame(3, depends_on=0, stream_weight=200), PriorityFrame(5, depends_on=3, stream_weight=0),
              HeadersFrame(13, encoder.encode(headers), flags=["END_HEADERS"]),
              DataFrame(13, message(b""), pad_length=3, flags=["PADDED", "END_STREAM"])]
    sent = PREFACE + b"".join(f.serialize() for f in frames)
    answer = OPENED + AGREED + frame(8, 0, 0, (9).to_bytes(4, "big")) + answered(13, b"", CAPABLE)[13:]
    return sent, answer


def literal_of(content):
    shown = "".join(chr(c) if 32 <= c < 127 and c not in b'"\\' else f"\\x{c:02x}" for c in content)
    return f'b"{shown}"'


if len(sys.argv) > 1:
    for name, content in zip(("calls.h2", "calls.answers"), h2_client()):
        (pathlib.Path(sys.argv[1]) / name).write_bytes(content)
    sys.exit()
print("//! What clients send and are answered, by bench/connection_vectors.py.\n")
for name, doc, (sent, answer) in [("H2", "python3-h2: three calls.", h2_client()),
                                  ("NGHTTP2", "What nghttp2's client sends: one call.", nghttp2_client())]:
    print(f"/// {doc}\npub(crate) const {name}_SENDS: &[u8] = {literal_of(sent)};\n")
    print(f"/// What it is answered.\npub(crate) const {name}_IS_ANSWERED: &[u8] = {literal_of(answer)};\n")
