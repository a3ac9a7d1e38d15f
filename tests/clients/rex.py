"""The messages of the Remote Execution API v2 that the client tests send and read, spelled by hand from its .proto file."""
import hashlib

CAS = "/build.bazel.remote.execution.v2.ContentAddressableStorage/"
BYTES = "/google.bytestream.ByteStream/"
CAPABILITIES = "/build.bazel.remote.execution.v2.Capabilities/GetCapabilities"


def varint(n):
    out = b""
    while n > 127:
        out, n = out + bytes([n & 127 | 128]), n >> 7
    return out + bytes([n])


def field(number, value):
    """A field of Protobuf: a varint where the value is a number (none for 0), else its bytes with their length."""
    if isinstance(value, int):
        return bytes([number << 3]) + varint(value) if value else b""
    return bytes([number << 3 | 2]) + varint(len(value)) + value


def fields(message):
    """The fields of a message, in order, each with its number."""
    def number(at):
        n = shift = 0
        while True:
            n |= (message[at] & 127) << shift
            at, shift = at + 1, shift + 7
            if message[at - 1] < 128:
                return n, at
    at = 0
    while at < len(message):
        tag, at = number(at)
        value, at = number(at)
        if tag & 7 == 2:
            value, at = message[at:at + value], at + value
        yield tag >> 3, value


def get(message, number, default=b""):
    """The last field of a number, or the default."""
    return dict(fields(message)).get(number, default)


def digest(content):
    return field(1, hashlib.sha256(content).hexdigest().encode()) + field(2, len(content))


def named(content):
    return f"{hashlib.sha256(content).hexdigest()}/{len(content)}"


def find(contents):
    return b"".join(field(2, digest(c)) for c in contents)


def missing(response):
    """The digests that a Find's response lists."""
    return [value for number, value in fields(response) if number == 2]


def update(pairs):
    """An update of contents, each under the digest of what stands beside it."""
    return b"".join(field(2, field(1, digest(name)) + field(2, content)) for name, content in pairs)


def updated(response):
    """The status code of each blob of an update's response."""
    return [get(get(value, 2), 1, 0) for number, value in fields(response) if number == 1]


def read(contents):
    return b"".join(field(2, digest(c)) for c in contents)


def given(response):
    """The bytes and the status code of each blob of a read's response."""
    return [(get(value, 2), get(get(value, 3), 1, 0)) for number, value in fields(response) if number == 1]


def read_from(name, offset=0, limit=0):
    """A ByteStream Read of a resource, from an offset and of at most so many bytes."""
    return field(1, name.encode()) + field(2, offset) + field(3, limit)


def piece(response):
    """The bytes of a Read's response."""
    return get(response, 10)
