#!/usr/bin/python3
"""Prints src/tests/clients.rt of grpc_calls: connections as gRPC's clients and servers usually send them, and their events.

The header blocks are encoded by Debian's python3-hpack, and the frames are spelled by its python3-hyperframe. Which events
they have was worked out from gRPC over HTTP/2.
"""
from hpack import Encoder
from hyperframe.frame import DataFrame, GoAwayFrame, HeadersFrame, PingFrame, PriorityFrame, RstStreamFrame, SettingsFrame
from hyperframe.frame import ContinuationFrame, WindowUpdateFrame

PREFACE = b"PRI * HTTP/2.0\r\n\r\nSM\r\n\r\n"
FIND = "/build.bazel.remote.execution.v2.ContentAddressableStorage/FindMissingBlobs"
WRITE = "/google.bytestream.ByteStream/Write"

CORE = [(":scheme", "http"), (":method", "POST"), (":authority", "localhost:9092"), (":path", FIND), ("te", "trailers"),
        ("content-type", "application/grpc"), ("user-agent", "grpc-c++/1.60.0 grpc-c/37.0.0 (linux; chttp2)"),
        ("grpc-accept-encoding", "identity, deflate, gzip"), ("grpc-timeout", "60S"),
        ("build.bazel.remote.execution.v2.requestmetadata-bin", "CgkKBWJhemVsEgA")]
JAVA = [(":authority", "localhost:9092"), (":path", WRITE), (":method", "POST"), (":scheme", "http"),
        ("content-type", "application/grpc"), ("te", "trailers"), ("user-agent", "grpc-java-netty/1.60.0"),
        ("grpc-accept-encoding", "gzip"), ("grpc-timeout", "59999m")]
GO = [(":method", "POST"), (":scheme", "http"), (":path", FIND), (":authority", "localhost:9092"),
      ("content-type", "application/grpc+proto"), ("user-agent", "grpc-go/1.60.0"), ("te", "trailers"),
      ("grpc-timeout", "59S")]
NGHTTP2 = [(":method", "POST"), (":path", FIND), (":scheme", "http"), (":authority", "localhost"), ("accept", "*/*"),
           ("accept-encoding", "gzip, deflate"), ("user-agent", "nghttp2/1.59.0"),
           ("content-type", "application/grpc; charset=utf-8"), ("content-length", "11"), ("te", "trailers")]


def changed(headers, **values):
    """A request with other values, by the ends of the names, or without them."""
    for end, value in values.items():
        name = {"method": ":method", "path": ":path", "type": "content-type", "status": ":status"}[end]
        headers = [(n, value if n == name else v) for n, v in headers if n != name or value is not None]
    return headers


def message(content):
    return b"\0" + len(content).to_bytes(4, "big") + content


class Peer:
    """One end of a connection."""

    def __init__(self, client, *settings):
        self.encoder = Encoder()
        self.out = (PREFACE if client else b"") + SettingsFrame(0, settings=dict(settings)).serialize()

    def frame(self, frame, *flags):
        for flag in flags:
            frame.flags.add(flag)
        self.out += frame.serialize()
        return self

    def headers(self, stream, headers, *flags):
        return self.frame(HeadersFrame(stream, self.encoder.encode(headers)), "END_HEADERS", *flags)

    def split_headers(self, stream, headers, at):
        block = self.encoder.encode(headers)
        self.frame(HeadersFrame(stream, block[:at]))
        return self.frame(ContinuationFrame(stream, block[at:]), "END_HEADERS")

    def data(self, stream, payload, *flags, pad=0):
        frame = DataFrame(stream, payload, pad_length=pad)
        return self.frame(frame, *flags, *(["PADDED"] if pad else []))


END = "END_STREAM"
ABC = message(b"abc")
OK = [(":status", "200"), ("content-type", "application/grpc")]


def served(*settings):
    return Peer(True, *settings)


def answered(*settings):
    return Peer(False, *settings)


# what a client sends, and what a server is told

def one(headers, *settings):
    return served(*settings).headers(1, headers).data(1, ABC, END)


REQUESTS = [
    ("C core", one(CORE, (2, 0), (3, 0), (4, 4194304), (5, 4194304), (6, 16384), (0xfe03, 1)),
     [("Begun", 1, FIND), ("Message", 1, b"abc"), ("HalfClosed", 1)]),
    ("C core: an empty DATA ends the request", served().headers(1, CORE).data(1, ABC).data(1, b"", END),
     [("Begun", 1, FIND), ("Message", 1, b"abc"), ("HalfClosed", 1)]),
    ("C core: two calls, the second by the header table of the first",
     served().headers(1, CORE).headers(3, CORE).data(3, ABC, END).data(1, message(b""), END),
     [("Begun", 1, FIND), ("Begun", 3, FIND), ("Message", 3, b"abc"), ("HalfClosed", 3), ("Message", 1, b""),
      ("HalfClosed", 1)]),
    ("grpc-java: from stream 3 on, a block in two frames, and messages across frames",
     served((2, 0), (3, 0), (4, 1048576), (6, 8192)).frame(WindowUpdateFrame(0, window_increment=983041))
     .frame(PriorityFrame(3, depends_on=0, stream_weight=15)).split_headers(3, JAVA, 50)
     .data(3, b"\0\0").data(3, b"\0\0\x05ab").data(3, b"cd").data(3, b"e" + ABC + b"\0", pad=7).data(3, b"\0\0\0\x01x", END),
     [("Begun", 3, WRITE), ("Message", 3, b"abcde"), ("Message", 3, b"abc"), ("Message", 3, b"x"), ("HalfClosed", 3)]),
    ("grpc-go: content of a subtype, and a PING between", served().headers(1, GO).frame(PingFrame(0, opaque_data=b"pingpong"))
     .data(1, ABC, END), [("Begun", 1, FIND), ("Message", 1, b"abc"), ("HalfClosed", 1)]),
    ("grpc-go: the client cancels its call", served().headers(1, GO).data(1, ABC[:4]).frame(RstStreamFrame(1, error_code=8))
     .data(1, b"\xff").headers(3, GO), [("Begun", 1, FIND), ("Cancelled", 1, 8), ("Begun", 3, FIND)]),
    ("grpc-go: the client goes away", served().headers(1, GO).frame(GoAwayFrame(0)).data(1, ABC, END),
     [("Begun", 1, FIND), ("GoAway",), ("Message", 1, b"abc"), ("HalfClosed", 1)]),
    ("nghttp2: parameters of the type, padding, and trailers", served().headers(1, NGHTTP2).data(1, ABC, pad=255)
     .headers(1, [("x-checksum", "1")], END), [("Begun", 1, FIND), ("Message", 1, b"abc"), ("HalfClosed", 1)]),
    ("a call without messages", served().headers(1, GO, END), [("Begun", 1, FIND), ("HalfClosed", 1)]),
    ("a path that is no text", served().headers(1, changed(GO, path=b"/\xff"), END), [("Begun", 1, ""), ("HalfClosed", 1)]),
    ("another method", one(changed(GO, method="GET")), []),
    ("another type of content", one(changed(GO, type="application/json")), []),
    ("a shorter type of content", one(changed(GO, type="application/grp")), []),
    ("no type of content", one(changed(GO, type=None)), []),
    ("a compressed message", one(GO).headers(3, GO).data(3, b"\1\0").data(3, ABC, END),
     [("Begun", 1, FIND), ("Message", 1, b"abc"), ("HalfClosed", 1), ("Begun", 3, FIND), ("Broken", 3, 12, "compressed message")]),
    ("a flag of 2", served().headers(1, GO).data(1, ABC + b"\2").data(1, ABC, END),
     [("Begun", 1, FIND), ("Message", 1, b"abc"), ("Broken", 1, 13, "bad flag")]),
    ("a message that is too large", served().headers(1, GO).data(1, b"\0\0\x80\0\1").data(1, b"x", END),
     [("Begun", 1, FIND), ("Broken", 1, 3, "message too large")]),
    ("a message of the largest size, which doesn't come", served().headers(1, GO).data(1, b"\0\0\x80\0\0x", END),
     [("Begun", 1, FIND), ("Broken", 1, 3, "truncated message")]),
    ("a message that ends inside its length", served().headers(1, GO).data(1, ABC + b"\0\0").headers(1, [("a", "b")], END),
     [("Begun", 1, FIND), ("Message", 1, b"abc"), ("Broken", 1, 3, "truncated message")]),
]

# what a server sends on the stream of a call, and what its client is told

BAD = ("Broken", 1, 13, "bad answer")
ANSWERS = [
    ("an answer", answered().headers(1, OK).data(1, ABC + message(b"d")).headers(1, [("grpc-status", "0")], END),
     [("Message", 1, b"abc"), ("Message", 1, b"d"), ("Ended", 1, 0, "")]),
    ("grpc-go: an answer in its trailers alone",
     answered().headers(1, OK + [("grpc-status", "5"), ("grpc-message", "not here caf%C3%A9 100%25")], END),
     [("Ended", 1, 5, "not here caf\u00e9 100%")]),
    ("C core: an empty text, and an unknown code", answered().headers(1, OK).headers(1, [("grpc-status", "17"), ("grpc-message", "")], END),
     [("Ended", 1, 2, "")]),
    ("a code with a zero in front, and a text that isn't UTF-8",
     answered().headers(1, OK).headers(1, [("grpc-message", "%ff %4"), ("grpc-status", "015")], END), [("Ended", 1, 15, "\ufffd %4")]),
    ("another status of HTTP", answered().headers(1, changed(OK, status="503"), END), [BAD]),
    ("no code", answered().headers(1, OK).headers(1, [("grpc-message", "x")], END), [BAD]),
    ("a code that is no number", answered().headers(1, OK).headers(1, [("grpc-status", "1x")], END), [BAD]),
    ("no trailers", answered().headers(1, OK).data(1, ABC, END), [("Message", 1, b"abc"), BAD]),
    ("a message that isn't whole", answered().headers(1, OK).data(1, ABC[:7]).headers(1, [("grpc-status", "0")], END),
     [("Broken", 1, 3, "truncated message")]),
    ("messages before the headers", answered().data(1, ABC), [BAD]),
    ("a stream that is reset, and one that is unknown", answered().frame(RstStreamFrame(1, error_code=2)),
     [("Cancelled", 1, 2)]),
    ("a stream that is reset behind its answer",
     answered().headers(1, OK).headers(1, [("grpc-status", "0")], END).frame(RstStreamFrame(1, error_code=0)).frame(GoAwayFrame(0)),
     [("Ended", 1, 0, ""), ("GoAway",)]),
]

# what a server writes for a request that it refuses

def refused(status, ended):
    written = [SettingsFrame(0, settings={3: 100, 6: 16384}), SettingsFrame(0, flags=["ACK"])]
    written.append(HeadersFrame(1, b"\x08\x03" + status, flags=["END_HEADERS", "END_STREAM"]))
    if not ended:
        written.append(RstStreamFrame(1, error_code=0))
    return b"".join(frame.serialize() for frame in written)


REFUSALS = [
    ("another method", served().headers(1, changed(GO, method="GET")), refused(b"405", False)),
    ("another method, and another type of content",
     served().headers(1, changed(GO, method="PUT", type="text/html"), END), refused(b"405", True)),
    ("another type of content", served().headers(1, changed(GO, type="application/grp"), END), refused(b"415", True)),
    ("no type of content", served().headers(1, changed(GO, type=None)), refused(b"415", False)),
]


def literal(data):
    return 'b"' + "".join(chr(b) if 32 <= b < 127 and b not in b'"\\' else f"\\x{b:02x}" for b in data) + '"'


def part(value):
    if isinstance(value, bytes):
        return literal(value)
    return f'"{value}"' if isinstance(value, str) else str(value)


def seen(event):
    return f"Seen::{event[0]}" + ("(" + ", ".join(part(v) for v in event[1:]) + ")" if event[1:] else "")


def table(name, doc, rows):
    print(f"/// {doc}\nconst {name}: &[(&str, &[u8], &[Seen<'static>])] = &[")
    for row, peer, events in rows:
        print(f'    (\n        "{row}",\n        {literal(peer.out)},\n        &[' + ", ".join(map(seen, events)) + "],\n    ),")
    print("];\n")


print('''//! Connections of clients and servers, by bench/grpc_vectors.py.

use crate::calls::Calls;
use crate::tests::{Seen, client, feed, tell};
use std::process::Abort;
use std::test::Fail;
''')
table("REQUESTS", "What a client sends, and what the server's caller is told.", REQUESTS)
table("ANSWERS", "What a server sends to a client that has begun a call, and what the client's caller is told.", ANSWERS)
print("/// What a client sends, and what the server writes.\nconst REFUSALS: &[(&str, &[u8], &[u8])] = &[")
for row, peer, written in REFUSALS:
    print(f'    (\n        "{row}",\n        {literal(peer.out)},\n        {literal(written)},\n    ),')
print("];\n")
print(f"/// A call of a client without a message in it.\npub(crate) const CALL: &[u8] = {literal(served().headers(1, GO).data(1, message(b''), END).out)};\n")
print('''#[test]
fn requests_are_told(rt: HostRuntime) -> Result<(), Fail> {
    'rows: for (name, bytes, events) in REQUESTS {
        let mut calls = Calls::server(rt.alloc())?;
        feed(&mut calls, bytes)?;
        assert_eq!(rt; tell(&mut calls, events, 0), Some(events.len()), "{name}");
    }
    Ok(())
}

#[test]
fn answers_are_told(rt: HostRuntime) -> Result<(), Fail> {
    'rows: for (name, bytes, events) in ANSWERS {
        let mut calls = client(rt.alloc())?;
        feed(&mut calls, bytes)?;
        assert_eq!(rt; tell(&mut calls, events, 0), Some(events.len()), "{name}");
    }
    Ok(())
}

#[test]
fn refused_requests_are_answered(rt: HostRuntime) -> Result<(), Fail> {
    'rows: for (name, bytes, written) in REFUSALS {
        let mut calls = Calls::server(rt.alloc())?;
        feed(&mut calls, bytes)?;
        assert_eq!(rt; tell(&mut calls, &[], 0), Some(0), "{name}");
        assert_eq!(rt; calls.take_output().as_slice(), *written, "{name}");
    }
    Ok(())
}''')
