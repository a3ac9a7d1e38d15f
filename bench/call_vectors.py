#!/usr/bin/python3
"""Prints src/calls.rt of connection_tests: what a client sends that makes calls on many blobs, one after another on a connection, and
what it is to be answered. The messages are spelled from the Remote Execution API v2, the frames from RFC 9113, RFC 7541 (literals
without an index) and gRPC over HTTP/2.
"""
import hashlib

CAS = "/build.bazel.remote.execution.v2.ContentAddressableStorage/"


def varint(n):
    out = b""
    while n > 127:
        out, n = out + bytes([n & 127 | 128]), n >> 7
    return out + bytes([n])


def field(number, value):
    """A length-delimited field or a varint of Protobuf. A number 0 is left out."""
    if isinstance(value, int):
        return bytes([number << 3]) + varint(value) if value else b""
    return bytes([number << 3 | 2]) + varint(len(value)) + value


def digest(content, size=None):
    return field(1, hashlib.sha256(content).hexdigest().encode()) + field(2, len(content) if size is None else size)


def printed(content):
    return f"{hashlib.sha256(content).hexdigest()}/{len(content)}"


def status(code=0, text=""):
    return field(1, code) + (field(2, text.encode()) if text else b"")


def find(*digests, function=0):
    return "FindMissingBlobs", b"".join(field(2, d) for d in digests) + field(3, function)


def missing(*digests):
    return b"".join(field(2, d) for d in digests)


def update(*contents, compressor=0, function=0):
    return "BatchUpdateBlobs", b"".join(field(2, field(1, digest(c)) + field(2, c) + field(3, compressor)) for c in contents) + field(5, function)


def updated(*pairs):
    return b"".join(field(1, field(1, digest(c)) + field(2, s)) for c, s in pairs)


def read(*digests, function=0):
    return "BatchReadBlobs", b"".join(field(2, d) for d in digests) + field(4, function)


def given(*triples):
    return b"".join(field(1, field(1, d) + (field(2, c) if c else b"") + field(3, s)) for d, c, s in triples)


def message(content):
    return b"\0" + len(content).to_bytes(4, "big") + content


def frame(kind, flags, stream, payload):
    return len(payload).to_bytes(3, "big") + bytes([kind, flags]) + stream.to_bytes(4, "big") + payload


def literal(name, value):
    return b"\0" + bytes([len(name)]) + name + bytes([len(value)]) + value


TYPE = b"\x0f\x10\x10application/grpc"


def sent(stream, call):
    name, content = call
    path = (CAS + name).encode()
    return frame(1, 4, stream, b"\x83\x86\x04" + bytes([len(path)]) + path + TYPE) + frame(0, 1, stream, message(content))


def answered(stream, call, answer):
    """The window given back, the headers, and the message with status 0, or a status with its text."""
    granted = frame(8, 0, 0, len(message(call[1])).to_bytes(4, "big")) + frame(1, 4, stream, b"\x88" + TYPE)
    if isinstance(answer, bytes):
        return granted + frame(0, 0, stream, message(answer)) + frame(1, 5, stream, literal(b"grpc-status", b"0"))
    code, text = answer
    return granted + frame(1, 5, stream, literal(b"grpc-status", str(code).encode()) + literal(b"grpc-message", text.encode()))


ABC, ABD, NONE = digest(b"abc"), digest(b"abd"), digest(b"")
LARGE = [digest(b"large", 3_670_000), digest(b"small", 16)]
ROWS = [
    ("the empty blob is there", False, [(find(NONE), missing())]),
    ("what is missing is listed once", False, [(update(b"abc"), updated((b"abc", b""))), (find(ABD, ABC, NONE, ABD), missing(ABD))]),
    ("blobs are read", False, [
        (update(b"abc"), updated((b"abc", b""))),
        (read(ABC, ABD, NONE), given((ABC, b"abc", b""), (ABD, b"", status(5, "not here " + printed(b"abd"))), (NONE, b"", b"")))]),
    ("blobs of 3,670,016 bytes are read", False, [
        (read(*LARGE), given(*[(d, b"", status(5, "not here " + hashlib.sha256(c).hexdigest() + "/" + n)) for d, c, n in zip(LARGE, [b"large", b"small"], ["3670000", "16"])]))]),
    ("blobs of a byte more are not", False, [(read(*LARGE, digest(b"x")), (3, "batch too large"))]),
    ("a body that has changed", True, [
        (update(b"abc"), updated((b"abc", b""))),
        (read(ABC), given((ABC, b"", status(15, f"want {printed(b'abc')}, got {printed(b'bbc')}")))),
        (find(ABC), missing(ABC)),
        (read(ABC), given((ABC, b"", status(5, "not here " + printed(b"abc")))))]),
    ("SHA-256 by its name", False, [(find(ABD, function=1), missing(ABD))]),
    ("SHA-1", False, [(call, (12, "digest function")) for call in [find(ABC, function=2), update(b"abc", function=2), read(ABC, function=2)]]),
    ("a compressor", False, [(update(b"abc", compressor=1), updated((b"abc", status(12, "compressor"))))]),
]


def rust(octets):
    return 'b"' + "".join(chr(b) if 32 <= b < 127 and b not in b'"\\' else f"\\x{b:02x}" for b in octets) + '"'


def main():
    print("//! What a client sends and is answered, by bench/call_vectors.py.\n")
    print("/// The name of a connection, whether the shelf's first body has changed, what the client sends, and what it is answered.")
    print("pub(crate) const CALLS: &[(&str, bool, &[u8], &[u8])] = &[")
    for name, changed, calls in ROWS:
        streams = list(enumerate(calls))
        sends = b"PRI * HTTP/2.0\r\n\r\nSM\r\n\r\n" + frame(4, 0, 0, b"") + b"".join(sent(2 * k + 1, call) for k, (call, _) in streams)
        answers = frame(4, 0, 0, b"\0\x03\0\0\0\x64\0\x06\0\0\x40\0") + frame(4, 1, 0, b"") + b"".join(answered(2 * k + 1, call, answer) for k, (call, answer) in streams)
        print(f'    (\n        "{name}",\n        {str(changed).lower()},\n        {rust(sends)},\n        {rust(answers)},\n    ),')
    print("];")


main()
