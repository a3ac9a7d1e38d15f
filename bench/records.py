"""Records of uploads and the answers that are due, made apart from the program: hashes by hashlib, messages by the few
lines of the Protocol Buffers encoding below.

    records.py upload N SIZE [same]   N records, each with a blob of SIZE bytes; with `same` always the same blob
    records.py vectors                the worked examples of the tests, one to a line: what it shows, line, answer
"""

import hashlib
import sys


def varint(number):
    out = bytearray()
    while number >= 128:
        out.append(number % 128 + 128)
        number //= 128
    out.append(number)
    return bytes(out)


def int_field(number, value):
    return varint(8 * number) + varint(value)


def bytes_field(number, value):
    return varint(8 * number + 2) + varint(len(value)) + value


def digest(hash_text, size):
    return bytes_field(1, hash_text.encode()) + (int_field(2, size) if size else b"")


def digest_of(blob):
    return digest(hashlib.sha256(blob).hexdigest(), len(blob))


def request(*items, after=b""):
    return b"".join(bytes_field(2, item) for item in items) + after


def item(digest_content, blob, after=b""):
    return bytes_field(1, digest_content) + (bytes_field(2, blob) if blob else b"") + after


def response(*answers):
    out = b""
    for digest_content, code, text in answers:
        status = (int_field(1, code) if code else b"") + (bytes_field(2, text.encode()) if text else b"")
        out += bytes_field(1, bytes_field(1, digest_content) + bytes_field(2, status))
    return out


def upload(seat, message):
    return f"{seat} BatchUpdateBlobs {message.hex() or '.'}"


def fine(seat, message):
    return f"{seat} BatchUpdateBlobs 0 {message.hex() or '.'} -"


def vectors():
    abc = digest_of(b"abc")
    h = hashlib.sha256(b"abc").hexdigest()
    good = request(item(abc, b"abc"))
    one = fine(1, response((abc, 0, "")))
    want = f"want {h}/4, got {h}/3"
    parts = bytes_field(1, bytes_field(1, h.encode())) + bytes_field(1, int_field(2, 3)) + bytes_field(2, b"abc")
    overlong = bytes_field(1, bytes_field(1, h.encode()) + bytes.fromhex("108300")) + bytes_field(2, b"abc")
    refused = "1 BatchUpdateBlobs 3 - "
    not_built = "1 BatchUpdateBlobs 12 - not built"
    yield "a blob is stored", upload(1, good), one
    yield "another size is refused", upload(1, request(item(digest(h, 4), b"abc"))), fine(1, response((digest(h, 4), 3, want)))
    yield "a hash in upper case is no digest", upload(1, request(item(digest(h.upper(), 3), b"abc"))), refused + "bad digest"
    yield "an absent digest is none", upload(1, request(bytes_field(2, b"abc"))), refused + "bad digest"
    yield "a negative size is no digest", upload(1, request(item(bytes_field(1, h.encode()) + int_field(2, 2**64 - 1), b"abc"))), refused + "bad digest"
    yield "an overlong varint and an unknown field are taken", upload(1, request(overlong, after=int_field(15, 1))), one
    yield "a digest in two parts is joined", upload(1, request(parts)), one
    yield "the last data counts", upload(1, request(bytes_field(1, abc) + bytes_field(2, b"xyz") + bytes_field(2, b"abc"))), one
    yield "no message", "1 BatchUpdateBlobs -", refused + "no message"
    yield "two messages", "1 BatchUpdateBlobs .,.", refused + "more than one message"
    yield "a message that is cut short", "1 BatchUpdateBlobs 0a", refused + "bad message"
    yield "an instance name that is no text", upload(1, bytes_field(1, b"\xff") + good), refused + "bad message"
    yield "a request of no blobs", "1 BatchUpdateBlobs .", "1 BatchUpdateBlobs 0 . -"
    yield "the empty blob", upload(7, request(item(digest_of(b""), b""))), fine(7, response((digest_of(b""), 0, "")))
    yield "two blobs, one of them wrong", upload(1, request(item(abc, b"abc"), item(abc, b"abd"))), fine(1, response((abc, 0, ""), (abc, 3, f"want {h}/3, got {hashlib.sha256(b'abd').hexdigest()}/3")))
    yield "SHA-256 named", upload(1, request(item(abc, b"abc"), after=int_field(5, 1))), one
    yield "another digest function", upload(1, request(item(abc, b"abc"), after=int_field(5, 2))), not_built
    yield "a compressor", upload(1, request(item(abc, b"abc", after=int_field(3, 1)))), not_built
    yield "a word that isn't built", "1 GetCapabilities .", "1 GetCapabilities 12 - not built"
    yield "a word of seat 0", "0 Usage -", "0 Usage 12 - not built"


def main(words):
    if words[:1] == ["upload"]:
        count, size, same = int(words[1]), int(words[2]), words[3:] == ["same"]
        out = sys.stdout.buffer
        for number in range(count):
            blob = (b"%d " % (0 if same else number) * size)[:size]
            out.write(upload(1, request(item(digest_of(blob), blob))).encode() + b"\n")
    elif words == ["vectors"]:
        for shows, line, answer in vectors():
            print(f"{shows}\t{line}\t{answer}")
    else:
        sys.exit(__doc__)


if __name__ == "__main__":
    main(sys.argv[1:])
