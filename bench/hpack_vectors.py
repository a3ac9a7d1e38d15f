#!/usr/bin/python3
"""Prints the table of src/encoder_tests.rt of hpack_tables: header lists as Debian's python3-hpack encodes them.

Each connection is one encoder: its name, whether strings are Huffman coded, and its blocks. A number among the blocks sets
the encoder's table size before the next one. A name with a leading '!' is of a header that is never added.
"""
from hpack import Encoder, HeaderTuple, NeverIndexedHeaderTuple

HASH = "0123456789abcdef0123456789abcdef0123456789abcdef0123456789abcdef"


def request(path, *more):
    return [(":method", "POST"), (":scheme", "http"), (":path", path), (":authority", "cache.example.com:9092"),
            ("content-type", "application/grpc"), ("te", "trailers"), ("user-agent", "grpc-go/1.60.0")] + list(more)


REQUESTS = [
    request("/build.bazel.remote.execution.v2.ContentAddressableStorage/FindMissingBlobs", ("grpc-timeout", "60S")),
    request("/google.bytestream.ByteStream/Read", ("grpc-timeout", "60S")),
    request("/build.bazel.remote.execution.v2.ContentAddressableStorage/FindMissingBlobs", ("grpc-timeout", "59999m")),
]
RESPONSES = [
    [(":status", "200"), ("content-type", "application/grpc")],
    [("grpc-status", "0"), ("grpc-message", "")],
    [(":status", "404"), ("content-length", "0"), ("cache-control", "no-cache, private, max-age=0")],
    [(":status", "200"), ("content-type", "application/grpc"), ("grpc-status", "5"),
     ("grpc-message", "blob " + HASH + " isn't here")],
]
SECRETS = [
    [(":method", "GET"), (":path", "/"), ("!authorization", "Bearer abc.def"), ("x-trace", "00-af")],
    [(":method", "GET"), (":path", "/index.html"), ("!authorization", "Bearer abc.def"), ("x-trace", "00-af")],
]
CONNECTIONS = [
    ("requests, plain", False, REQUESTS),
    ("requests, coded", True, REQUESTS),
    ("responses, plain", False, RESPONSES),
    ("responses, coded", True, RESPONSES),
    ("a header that is never added", True, SECRETS),
    ("a table of 256, then none, then 4,096", False, [256] + REQUESTS[:2] + [0, REQUESTS[1], 4096, REQUESTS[2]]),
]


def text(s):
    return '"' + s.replace("\\", "\\\\").replace('"', '\\"') + '"'


def pair(name, value):
    return "(" + text(name) + ", " + text(value) + ")"


def blocks_of(coded, blocks):
    encoder = Encoder()
    for block in blocks:
        if isinstance(block, int):
            encoder.header_table_size = block
            continue
        headers = [NeverIndexedHeaderTuple(n[1:], v) if n.startswith("!") else HeaderTuple(n, v) for n, v in block]
        yield encoder.encode(headers, huffman=coded).hex(), [(n.lstrip("!"), v) for n, v in block]


for name, coded, blocks in CONNECTIONS:
    print("    (" + text(name) + ", &[")
    for spelled, headers in blocks_of(coded, blocks):
        print("        (" + text(spelled) + ", &[")
        for header in headers:
            print("            " + pair(*header) + ",")
        print("        ]),")
    print("    ]),")
