"""The expected bytes of the message tests, made by the protocol buffer compiler and its Python library (Debian's
protobuf-compiler and python3-protobuf) from messages.proto beside this file.

    messages.py        prints for each message its name, `full` or `bare`, and its bytes in hex

`full` has every field set. `bare` has none but the digests that a message must have and the messages that are written
even when they are empty.
"""

import hashlib
import importlib
import pathlib
import subprocess
import sys
import tempfile

HERE = pathlib.Path(__file__).parent


def compiled():
    with tempfile.TemporaryDirectory() as folder:
        subprocess.run(
            ["protoc", f"--proto_path={HERE}", f"--python_out={folder}", str(HERE / "messages.proto")], check=True
        )
        sys.path.insert(0, folder)
        return importlib.import_module("messages_pb2")


pb = compiled()

# Which digests a message must have, and which messages are written even when they are empty.
REQUIRED = {"digest", "root_digest"}
OPTIONAL = {("StageTreeRequest", "root_digest"), ("CaptureFilesResponseItem1", "digest")}
ALWAYS = {"status", "cache_capabilities", "low_api_version", "high_api_version"}

# The values of the full messages, by the names of the fields.
NUMBERS = {"code": -1, "major": 2, "minor": 3, "patch": 4, "page_size": -5, "compressor": 1, "digest_function": 1,
           "symlink_absolute_path_strategy": 2, "max_batch_total_size_bytes": 3670016, "read_offset": -1,
           "read_limit": 2**63 - 1, "write_offset": 128, "committed_size": 300}
LISTS = {"acceptable_compressors": [0, 1, -1, 300], "digest_functions": [1, 2]}
TEXTS = {"instance_name": "main", "message": "gr\u00fc\u00df", "page_token": "next", "next_page_token": "last",
         "resource_name": "blobs/x", "path": "/a/b"}
TEXT_LISTS = {"path": ["/a", "", "/b"], "node_properties": ["mtime"]}


def digest_of(blob):
    return pb.Digest(hash=hashlib.sha256(blob).hexdigest(), size_bytes=len(blob))


def fill(message):
    name = message.DESCRIPTOR.name
    for field in message.DESCRIPTOR.fields:
        value = getattr(message, field.name)
        many = field.label == field.LABEL_REPEATED
        if field.message_type is not None and field.message_type.name == "Digest":
            if many:
                value.extend([digest_of(b"abc"), digest_of(b"")])
            else:
                value.CopyFrom(digest_of(b"abc"))
        elif field.message_type is not None:
            if many:
                fill(value.add())
                if field.message_type.name != "FileNode":
                    bare(value.add())
            else:
                value.SetInParent()
                fill(value)
        elif many and field.type == field.TYPE_STRING:
            value.extend(TEXT_LISTS[field.name])
        elif many:
            value.extend(LISTS[field.name])
        elif field.type == field.TYPE_STRING:
            setattr(message, field.name, "a" if name == "FileNode" else TEXTS[field.name])
        elif field.type == field.TYPE_BYTES:
            setattr(message, field.name, b"abc")
        elif field.type == field.TYPE_BOOL:
            setattr(message, field.name, True)
        else:
            setattr(message, field.name, NUMBERS[field.name])


def bare(message):
    name = message.DESCRIPTOR.name
    for field in message.DESCRIPTOR.fields:
        if field.label == field.LABEL_REPEATED or field.message_type is None:
            continue
        value = getattr(message, field.name)
        if field.message_type.name == "Digest":
            if field.name in REQUIRED and (name, field.name) not in OPTIONAL:
                value.CopyFrom(digest_of(b""))
        elif field.name in ALWAYS:
            value.SetInParent()
            bare(value)


def main():
    for name, descriptor in pb.DESCRIPTOR.message_types_by_name.items():
        if name in ("Digest", "FileNode", "Directory"):
            continue
        for kind, make in (("full", fill), ("bare", bare)):
            message = getattr(pb, name)()
            make(message)
            print(name, kind, message.SerializeToString(deterministic=True).hex() or "-")


main()
