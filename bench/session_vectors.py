#!/usr/bin/python3
"""Prints src/tests/clients.rt of h2_session: what gRPC clients usually send, and what a server writes for it.

The header blocks of clients are Debian's python3-hpack's, and the frames that are wanted are spelled by its
python3-hyperframe; which frames are wanted, and in which order, was worked out from RFC 9113.
"""
from hpack import Encoder
from hyperframe.frame import DataFrame, HeadersFrame, PingFrame, RstStreamFrame, SettingsFrame, WindowUpdateFrame

PATH = "/build.bazel.remote.execution.v2.Capabilities/GetCapabilities"
CORE = [(":scheme", "http"), (":method", "POST"), (":authority", "localhost:9092"), (":path", PATH), ("te", "trailers"),
        ("content-type", "application/grpc"), ("user-agent", "grpc-c++/1.60.0 grpc-c/37.0.0 (linux; chttp2)"),
        ("grpc-accept-encoding", "identity, deflate, gzip")]
JAVA = [(":authority", "localhost:9092"), (":path", PATH), (":method", "POST"), (":scheme", "http"),
        ("content-type", "application/grpc"), ("te", "trailers"), ("user-agent", "grpc-java-netty/1.60.0"),
        ("grpc-accept-encoding", "gzip")]
GO = [(":method", "POST"), (":scheme", "http"), (":path", PATH), (":authority", "localhost:9092"),
      ("content-type", "application/grpc"), ("user-agent", "grpc-go/1.60.0"), ("te", "trailers"), ("grpc-timeout", "59S")]
MESSAGE = b"\0\0\0\0\x03abc"
ANSWER = b"\0\0\0\0\x02ok"


def literal(data):
    return 'b"' + "".join(chr(b) if 32 <= b < 127 and b not in b'"\\' else f"\\x{b:02x}" for b in data) + '"'


def flag(on):
    return "true" if on else "false"


# what the client and the caller do

def settings(*values):
    return "Call::Take(Step::Settings(&[" + ", ".join(f"({n}, {v})" for n, v in values) + "]))"


def headers(stream, block, end=False, whole=True):
    return f"Call::Take(Step::Headers({stream}, {block}, {flag(end)}, {flag(whole)}))"


def data(stream, payload, end):
    return f"Call::Take(Step::Data({stream}, {literal(payload)}, {flag(end)}))"


def take(step):
    return f"Call::Take(Step::{step})"


def ping(text):
    return f"Call::Take(Step::Ping(*{literal(text)}))"


def status(stream):
    return f"Call::Status({stream})"


def piece(stream, payload):
    return f"Call::Piece({stream}, {literal(payload)}, false)"


def trailers(stream):
    return f"Call::Trailers({stream})"


# what is written

def a_ack():
    return SettingsFrame(0, flags=["ACK"])


def a_pong(text):
    return PingFrame(0, opaque_data=text, flags=["ACK"])


def a_grant(stream, size):
    return WindowUpdateFrame(stream, window_increment=size)


def a_status(stream, block=b"\x88"):
    return HeadersFrame(stream, block, flags=["END_HEADERS"])


def a_piece(stream, payload):
    return DataFrame(stream, payload)


def a_trailers(stream):
    return HeadersFrame(stream, b"\0\x0bgrpc-status\x010", flags=["END_HEADERS", "END_STREAM"])


def a_reset(stream, code):
    return RstStreamFrame(stream, error_code=code)


def encoder(*lists):
    """The blocks of one connection, or its only block."""
    one = Encoder()
    blocks = [one.encode(headers) for headers in lists]
    return blocks if len(blocks) > 1 else blocks[0]


java = encoder(JAVA)
BLOCKS = dict(zip(["CORE", "CORE_AGAIN"], encoder(CORE, CORE)), JAVA=java, JAVA_FRONT=java[:50], JAVA_REST=java[50:],
              GO=encoder(GO))
SEQUENCES = [
    ("C core: settings with an unknown one, then a call",
     [settings((2, 0), (3, 0), (4, 4194304), (5, 4194304), (6, 16384), (0xfe03, 1)), take("Window(0, 4_128_769)"),
      headers(1, "CORE"), data(1, MESSAGE, True), take("Ack"), status(1), piece(1, ANSWER), trailers(1)],
     [a_ack(), a_grant(0, 8), a_status(1), a_piece(1, ANSWER), a_trailers(1)]),
    ("C core: a PING after each read",
     [settings(), headers(1, "CORE"), data(1, MESSAGE, False), ping(b"\0\0\0\0\0\0\0\x01"), data(1, MESSAGE, False),
      ping(b"\0\0\0\0\0\0\0\x02"), data(1, MESSAGE, True)],
     [a_ack(), a_grant(0, 8), a_grant(1, 8), a_pong(b"\0\0\0\0\0\0\0\x01"), a_grant(0, 8), a_grant(1, 8),
      a_pong(b"\0\0\0\0\0\0\0\x02"), a_grant(0, 8)]),
    ("C core: an empty DATA ends the request",
     [settings(), headers(1, "CORE"), data(1, MESSAGE, False), data(1, b"", True), status(1), trailers(1)],
     [a_ack(), a_grant(0, 8), a_grant(1, 8), a_status(1), a_trailers(1)]),
    ("C core: windows change while an answer waits",
     [settings((4, 3)), headers(1, "CORE"), data(1, MESSAGE, True), status(1), piece(1, ANSWER), trailers(1),
      settings((4, 5)), take("Window(1, 2)")],
     [a_ack(), a_grant(0, 8), a_status(1), a_piece(1, ANSWER[:3]), a_ack(), a_piece(1, ANSWER[3:5]),
      a_piece(1, ANSWER[5:]), a_trailers(1)]),
    ("C core: a second call, by the header table of the first",
     [settings(), headers(1, "CORE"), data(1, MESSAGE, True), headers(3, "CORE_AGAIN"), data(3, MESSAGE, True), status(3),
      trailers(3), status(1), trailers(1)],
     [a_ack(), a_grant(0, 8), a_grant(0, 8), a_status(3), a_trailers(3), a_status(1), a_trailers(1)]),
    ("grpc-java: from stream 3 on, with PRIORITY",
     [settings((2, 0), (3, 0), (4, 1048576), (6, 8192)), take("Window(0, 983_041)"), take("Priority(3)"),
      headers(3, "JAVA"), take("Priority(3)"), data(3, MESSAGE, True), status(3), trailers(3), take("Priority(3)")],
     [a_ack(), a_grant(0, 8), a_status(3), a_trailers(3)]),
    ("grpc-java: no header table, and a block in two frames",
     [settings((1, 0)), headers(3, "JAVA_FRONT", whole=False), take("Last(3, JAVA_REST)"), data(3, b"", True),
      status(3), trailers(3)],
     [a_ack(), a_status(3, b"\x20\x88"), a_trailers(3)]),
    ("grpc-go: the client cancels its call",
     [settings(), headers(1, "GO"), data(1, MESSAGE, True), status(1), take("Reset(1, 8)"), take("Window(1, 7)"),
      ping(b"deadline")],
     [a_ack(), a_grant(0, 8), a_status(1), a_pong(b"deadline")]),
    ("grpc-go: an answer comes before the request has ended",
     [settings(), headers(1, "GO"), data(1, MESSAGE, False), status(1), trailers(1), data(1, MESSAGE, True),
      take("Reset(1, 8)")],
     [a_ack(), a_grant(0, 8), a_grant(1, 8), a_status(1), a_trailers(1), a_reset(1, 0), a_grant(0, 8)]),
    ("grpc-go: the client goes away while a call is open",
     [settings(), headers(1, "GO"), take("GoAway(0)"), data(1, MESSAGE, True), status(1), piece(1, ANSWER), trailers(1)],
     [a_ack(), a_grant(0, 8), a_status(1), a_piece(1, ANSWER), a_trailers(1)]),
]

print('''//! What gRPC clients usually send, and what a server writes for it, by bench/session_vectors.py.

use crate::tests::{Call, Step, written};
use std::process::Abort;
use std::test::Fail;

''')
for name, block in BLOCKS.items():
    print(f"const {name}: &[u8] = {literal(block)};\n")
print('''/// Sequences by name: what the client sends and what is handed in, and then what is written.
const SEQUENCES: &[(&str, &[Call<'static>], &[u8])] = &[''')
for name, calls, wanted in SEQUENCES:
    print("    (")
    print(f'        "{name}",')
    print("        &[")
    for call in calls:
        print(f"            {call},")
    print("        ],")
    print(f"        {literal(b''.join(frame.serialize() for frame in wanted))},")
    print("    ),")
print('''];

#[test]
fn clients_are_answered(rt: HostRuntime) -> Result<(), Fail> {
    'sequences: for (name, calls, wanted) in SEQUENCES {
        let (out, _session) = written(rt.alloc(), false, calls)?;
        assert_eq!(rt; out.as_slice(), *wanted, "{name}");
    }
    Ok(())
}''')
