"""Drives the daemon with clients of others, and checks each answer. Prints `N passed, M failed`."""
import multiprocessing
import os
import re
import shutil
import socket
import struct
import subprocess
import sys
import tempfile
import time

import grpc
import h2.config
import h2.connection
import h2.events
import rex
from daemon import PROGRAM, Daemon

OK, INVALID, NOT_FOUND, EXHAUSTED = 0, 3, 5, 8


def call(target, path, message, timeout=20):
    with grpc.insecure_channel(target, options=[("grpc.max_receive_message_length", -1)]) as channel:
        return channel.unary_unary(path)(message, timeout=timeout)


def refusal(target, path, message, timeout=20):
    """The status of a call that is refused."""
    try:
        call(target, path, message, timeout)
    except grpc.RpcError as e:
        return e.code()
    return grpc.StatusCode.OK


def blobs(seed, count, size=1024):
    return [(b"%s %d " % (seed.encode(), i)).ljust(size, b".") for i in range(count)]


# ---- gRPC's C core

def capabilities(daemon):
    cache = rex.get(call(daemon.target, rex.CAPABILITIES, b""), 1)
    assert rex.get(cache, 1) in (b"\x01", 1), "SHA-256"
    assert rex.get(cache, 4, 0) == 3_670_016, "the most bytes of a batch"


def batches(daemon):
    all_blobs = blobs("batch", 1000)
    assert len(rex.missing(call(daemon.target, rex.CAS + "FindMissingBlobs", rex.find(all_blobs)))) == 1000
    assert rex.updated(call(daemon.target, rex.CAS + "BatchUpdateBlobs", rex.update(zip(all_blobs, all_blobs)))) == [OK] * 1000
    assert rex.missing(call(daemon.target, rex.CAS + "FindMissingBlobs", rex.find(all_blobs))) == []
    assert rex.given(call(daemon.target, rex.CAS + "BatchReadBlobs", rex.read(all_blobs))) == [(b, OK) for b in all_blobs]


def other_bytes_are_refused(daemon):
    wanted = b"what the digest says"
    assert rex.updated(call(daemon.target, rex.CAS + "BatchUpdateBlobs", rex.update([(wanted, wanted[::-1])]))) == [INVALID]
    assert rex.given(call(daemon.target, rex.CAS + "BatchReadBlobs", rex.read([wanted]))) == [(b"", NOT_FOUND)]


def large_batches(daemon):
    blob = os.urandom(3_600_000)
    assert rex.updated(call(daemon.target, rex.CAS + "BatchUpdateBlobs", rex.update([(blob, blob)]))) == [OK]
    assert rex.given(call(daemon.target, rex.CAS + "BatchReadBlobs", rex.read([blob]))) == [(blob, OK)]


def pieces(channel, name, offset=0, limit=0):
    """The responses of a Read."""
    return [rex.piece(r) for r in channel.unary_stream(rex.BYTES + "Read")(rex.read_from(name, offset, limit), timeout=60)]


def refused_read(daemon, name, offset=0, limit=0):
    with grpc.insecure_channel(daemon.target) as channel:
        try:
            pieces(channel, name, offset, limit)
        except grpc.RpcError as e:
            return e.code(), e.details()
    return grpc.StatusCode.OK, ""


LARGE = os.urandom(3_500_000)


def reads(daemon):
    assert rex.updated(call(daemon.target, rex.CAS + "BatchUpdateBlobs", rex.update([(LARGE, LARGE)]))) == [OK]
    name = "blobs/" + rex.named(LARGE)
    with grpc.insecure_channel(daemon.target) as channel:
        whole = pieces(channel, name)
        assert [len(p) for p in whole] == [1_048_576, 1_048_576, 1_048_576, 354_272] and b"".join(whole) == LARGE
        assert pieces(channel, "an/instance/" + name, 1_000_000, 1_500_000) == [LARGE[1_000_000:2_048_576], LARGE[2_048_576:2_500_000]]
        assert pieces(channel, name, 3_499_999) == [LARGE[-1:]]
        assert pieces(channel, name, 3_500_000) == []
        assert pieces(channel, name, 1, 1) == [LARGE[1:2]]
        assert pieces(channel, "blobs/" + rex.named(b"")) == []
    absent = rex.named(b"absent")
    assert refused_read(daemon, "blobs/" + absent) == (grpc.StatusCode.NOT_FOUND, "not here " + absent)
    assert refused_read(daemon, "blob/" + absent) == (grpc.StatusCode.INVALID_ARGUMENT, "bad name")
    assert refused_read(daemon, name, 3_500_001) == (grpc.StatusCode.OUT_OF_RANGE, "bad offset")
    assert refused_read(daemon, name, 0, 2 ** 64 - 1) == (grpc.StatusCode.INVALID_ARGUMENT, "bad limit")
    assert refused_read(daemon, name.replace("blobs/", "compressed-blobs/zstd/"))[0] == grpc.StatusCode.UNIMPLEMENTED


def reads_at_once(daemon):
    name = "blobs/" + rex.named(LARGE)
    with grpc.insecure_channel(daemon.target) as channel:
        read = channel.unary_stream(rex.BYTES + "Read")
        calls = [read(rex.read_from(name), timeout=60) for _ in range(40)]
        for answers in zip(*calls):
            assert len(set(answers)) == 1
        assert all(c.code() == grpc.StatusCode.OK for c in calls)


def a_read_is_cancelled(daemon):
    name = "blobs/" + rex.named(LARGE)
    with grpc.insecure_channel(daemon.target) as channel:
        for _ in range(20):
            answers = channel.unary_stream(rex.BYTES + "Read")(rex.read_from(name), timeout=60)
            assert rex.piece(next(answers)) == LARGE[:1_048_576]
            answers.cancel()
        assert b"".join(pieces(channel, name)) == LARGE


def writes_that_are_complete(daemon):
    write = "uploads/00000000-0000-0000-0000-000000000001/blobs/"
    answer = call(daemon.target, rex.BYTES + "QueryWriteStatus", rex.field(1, (write + rex.named(LARGE)).encode()))
    assert (rex.get(answer, 1, 0), rex.get(answer, 2, 0)) == (len(LARGE), 1)
    assert refusal(daemon.target, rex.BYTES + "QueryWriteStatus", rex.field(1, (write + rex.named(b"absent")).encode())) == grpc.StatusCode.NOT_FOUND


def unknown_methods(daemon):
    for path in (rex.CAS + "Unknown", rex.CAS + "GetTree", rex.BYTES + "Write"):
        assert refusal(daemon.target, path, b"") == grpc.StatusCode.UNIMPLEMENTED


def bad_messages(daemon):
    assert refusal(daemon.target, rex.CAS + "FindMissingBlobs", b"\xff\xff\xff") == grpc.StatusCode.INVALID_ARGUMENT


def late(target):
    # A call may be answered before the C core looks at its deadline.
    codes = {refusal(target, rex.CAS + "FindMissingBlobs", rex.find(blobs("late", 1000)), 0.00001) for _ in range(20)}
    assert grpc.StatusCode.DEADLINE_EXCEEDED in codes and codes <= {grpc.StatusCode.DEADLINE_EXCEEDED, grpc.StatusCode.OK}, codes


def deadlines(daemon):
    # A process of its own, since the C core keeps the connection of a call that was late.
    run_processes([(late, (daemon.target,))])
    capabilities(daemon)


def run_processes(calls):
    spawn = multiprocessing.get_context("spawn")
    processes = [spawn.Process(target=call, args=arguments) for call, arguments in calls]
    for process in processes:
        process.start()
    for process in processes:
        process.join(120)
    assert [process.exitcode for process in processes] == [0] * len(processes)


def worker(target, seed):
    mine = blobs(seed, 200)
    with grpc.insecure_channel(target) as channel:
        update = channel.unary_unary(rex.CAS + "BatchUpdateBlobs")
        read = channel.unary_unary(rex.CAS + "BatchReadBlobs")
        for blob in mine:
            assert rex.updated(update(rex.update([(blob, blob)]))) == [OK]
        assert rex.given(read(rex.read(mine))) == [(b, OK) for b in mine]


def eight_processes(daemon):
    run_processes([(worker, (daemon.target, f"process {i}")) for i in range(8)])


def many_calls_of_one_channel(daemon):
    mine = blobs("futures", 500)
    with grpc.insecure_channel(daemon.target) as channel:
        update = channel.unary_unary(rex.CAS + "BatchUpdateBlobs")
        futures = [update.future(rex.update([(blob, blob)])) for blob in mine]
        assert [rex.updated(f.result()) for f in futures] == [[OK]] * 500


# ---- nghttp2

def message_file(place, message):
    path = os.path.join(place, "message")
    with open(path, "wb") as file:
        file.write(b"\0" + struct.pack(">I", len(message)) + message)
    return path


def h2load(daemon):
    data = message_file(os.path.dirname(daemon.socket), b"")
    out = subprocess.run(["h2load", f"--base-uri=unix:{daemon.socket}", "-n", "20000", "-c", "8", "-m", "32", "-d", data, "-H", "content-type: application/grpc",
                          "-H", "te: trailers", f"http://localhost{rex.CAPABILITIES}"], capture_output=True, text=True, timeout=120).stdout
    assert "20000 succeeded, 0 failed, 0 errored" in out, out
    assert "status codes: 20000 2xx" in out, out


def curl(daemon):
    data = message_file(os.path.dirname(daemon.socket), b"")
    done = subprocess.run(["curl", "-sS", "--http2-prior-knowledge", "--unix-socket", daemon.socket, "-X", "POST", "-H", "content-type: application/grpc", "-H", "te: trailers",
                           "--data-binary", f"@{data}", "-D", "-", f"http://localhost{rex.CAPABILITIES}"], capture_output=True, timeout=30)
    assert done.returncode == 0 and b"HTTP/2 200" in done.stdout and b"grpc-status: 0" in done.stdout, done


# ---- python3-h2, and bytes by hand

class Peer:
    """A connection whose frames are made by python3-h2 or by hand."""
    def __init__(self, daemon):
        self.socket = socket.socket(socket.AF_UNIX)
        self.socket.settimeout(20)
        self.socket.connect(daemon.socket)
        self.h2 = h2.connection.H2Connection(h2.config.H2Configuration(client_side=True, header_encoding="utf-8"))
        self.h2.initiate_connection()
        self.flush()

    def flush(self):
        self.socket.sendall(self.h2.data_to_send())

    def raw(self, kind, flags, stream, payload):
        self.socket.sendall(struct.pack(">I", len(payload))[1:] + bytes([kind, flags]) + struct.pack(">I", stream) + payload)

    def open(self, path=rex.CAPABILITIES):
        stream = self.h2.get_next_available_stream_id()
        self.h2.send_headers(stream, [(":method", "POST"), (":scheme", "http"), (":path", path), (":authority", "localhost"), ("te", "trailers"), ("content-type", "application/grpc")])
        return stream

    def events(self):
        """The events until the connection ends."""
        while True:
            try:
                data = self.socket.recv(65536)
            except ConnectionError:
                return
            if not data:
                return
            yield from self.h2.receive_data(data)
            try:
                self.flush()
            except (BrokenPipe, ConnectionError):
                return

    def code(self):
        """The code of the GOAWAY with which the daemon ends the connection."""
        data = b""
        while True:
            try:
                more = self.socket.recv(65536)
            except ConnectionError:
                more = b""
            data += more
            if not more:
                break
        at = 0
        while at + 9 <= len(data):
            length, kind = int.from_bytes(data[at:at + 3], "big"), data[at + 3]
            if kind == 7:
                return int.from_bytes(data[at + 13:at + 17], "big")
            at += 9 + length
        return None


BrokenPipe = BrokenPipeError

# What a hostile client does after its preface, by its name, and the code of the GOAWAY that answers it.
FAULTS = {
    "a frame that is too long": (lambda p: p.socket.sendall(b"\0\x40\x01\0\0\0\0\0\1"), 6),
    "SETTINGS of 5 bytes": (lambda p: p.raw(4, 0, 0, b"\0" * 5), 6),
    "SETTINGS on a stream": (lambda p: p.raw(4, 0, 1, b""), 1),
    "an initial window above its range": (lambda p: p.raw(4, 0, 0, b"\0\4\xff\xff\xff\xff"), 3),
    "PING of 7 bytes": (lambda p: p.raw(6, 0, 0, b"\0" * 7), 6),
    "PING on a stream": (lambda p: p.raw(6, 0, 1, b"\0" * 8), 1),
    "WINDOW_UPDATE of 0": (lambda p: p.raw(8, 0, 0, b"\0" * 4), 1),
    "a window above its range": (lambda p: (p.raw(8, 0, 0, b"\x7f\xff\xff\xff"), p.raw(8, 0, 0, b"\x7f\xff\xff\xff")), 3),
    "DATA on stream 0": (lambda p: p.raw(0, 0, 0, b""), 1),
    "DATA on an idle stream": (lambda p: p.raw(0, 0, 1, b""), 1),
    "RST_STREAM on an idle stream": (lambda p: p.raw(3, 0, 1, b"\0" * 4), 1),
    "CONTINUATION out of its place": (lambda p: p.raw(9, 4, 1, b""), 1),
    "HEADERS on an even stream": (lambda p: p.raw(1, 4, 2, b"\x82"), 1),
    "a header block that can't be decoded": (lambda p: p.raw(1, 4, 1, b"\xff\xff\xff\xff\xff\xff"), 9),
    "PUSH_PROMISE of a client": (lambda p: p.raw(5, 4, 1, b"\0\0\0\2"), 1),
}


def faults(daemon):
    for name, (offend, code) in FAULTS.items():
        peer = Peer(daemon)
        try:
            offend(peer)
        except BrokenPipe:
            pass  # the daemon has ended the connection at the first part
        assert peer.code() == code, name
        capabilities(daemon)


def wrong_preface(daemon):
    with socket.socket(socket.AF_UNIX) as peer:
        peer.settimeout(20)
        peer.connect(daemon.socket)
        peer.sendall(b"GET / HTTP/1.1\r\nHost: localhost\r\n\r\n")
        while peer.recv(65536):
            pass
    capabilities(daemon)


def hurl(daemon, offend):
    """What a client does that reads nothing for a while, until it ends or the daemon ends the connection; then another is served."""
    peer = Peer(daemon)
    peer.socket.settimeout(2)
    try:
        offend(peer)
    except OSError:
        pass
    peer.socket.close()
    capabilities(daemon)


def rapid_reset(daemon):
    def offend(peer):
        for _ in range(10_000):
            peer.h2.reset_stream(peer.open(), 8)
            peer.flush()
    hurl(daemon, offend)


def flood(kind, payload):
    def test(daemon):
        hurl(daemon, lambda peer: [peer.raw(kind, 0, 0, payload) for _ in range(100_000)])
    return test


def continuations(daemon):
    def offend(peer):
        peer.raw(1, 0, 1, b"\x82")
        for _ in range(100_000):
            peer.raw(9, 0, 1, b"")
    hurl(daemon, offend)


def header_bomb(daemon):
    def offend(peer):
        peer.raw(1, 0, 1, b"\x40\x01a\x7f\xa1\x1e" + b"v" * 4000)
        for _ in range(1000):
            peer.raw(9, 0, 1, b"\xbe" * 16000)
    hurl(daemon, offend)


# ---- ends

def one_daemon_a_socket(daemon):
    second = subprocess.run([PROGRAM, "serve", daemon.socket, daemon.folder + "-other"], capture_output=True, text=True, timeout=30)
    assert second.returncode == 4 and "another daemon" in second.stderr, second
    assert second.stdout == ""


def found_again(daemon, place):
    """After its end in order, the next run on the same folder finds all blobs, in the order of their use."""
    kept = blobs("batch", 1000)
    assert rex.missing(call(daemon.target, rex.CAS + "FindMissingBlobs", rex.find(kept[::-1]))) == []
    status, out = daemon.end()
    assert status == 0 and re.fullmatch(r"connections \d+ entries \d+ rows \d+ used \d+\n", out), (status, out)
    with open(os.path.join(daemon.folder, "use-2")) as file:
        lines = file.read().split("\n")
    assert lines[-1001 - 1:-2] == [rex.named(blob) for blob in kept[::-1]]
    again = Daemon(place)
    rows = int(re.search(r"rows (\d+)", out)[1])
    assert f"{rows:,} blobs" in again.told, again.told
    assert rex.given(call(again.target, rex.CAS + "BatchReadBlobs", rex.read(kept))) == [(b, OK) for b in kept]
    status, out = again.end()
    assert status == 0 and f"rows {rows} " in out, (status, out)


TESTS = [capabilities, batches, other_bytes_are_refused, large_batches, reads, reads_at_once, a_read_is_cancelled, writes_that_are_complete, unknown_methods, bad_messages, deadlines, eight_processes, many_calls_of_one_channel, h2load, curl, faults, wrong_preface, rapid_reset,
         ("a flood of PING", flood(6, b"\0" * 8)), ("a flood of SETTINGS", flood(4, b"")), continuations, header_bomb, one_daemon_a_socket]


def main():
    place = tempfile.mkdtemp()
    daemon = Daemon(place)
    passed = failed = 0
    tests = [t if isinstance(t, tuple) else (t.__name__.replace("_", " "), t) for t in TESTS] + [("found again", lambda d: found_again(d, place))]
    for name, test in tests:
        start = time.monotonic()
        try:
            test(daemon)
            passed += 1
            print(f"{name}: passed ({time.monotonic() - start:.1f} s)", flush=True)
        except Exception as e:  # a test that fails is told, and the others go on
            failed += 1
            print(f"{name}: FAILED: {type(e).__name__}: {e}", flush=True)
    if daemon.process.poll() is None:
        daemon.kill()
    shutil.rmtree(place)
    print(f"{passed} passed, {failed} failed")
    return 1 if failed else 0


if __name__ == "__main__":
    sys.exit(main())
