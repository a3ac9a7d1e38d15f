"""Kills the daemon N times in the middle of uploads, and checks what each restart finds."""
import os
import random
import shutil
import sys
import tempfile
import threading
import time

import grpc

sys.path.insert(0, os.path.join(os.path.dirname(os.path.abspath(__file__)), "../clients"))
import rex  # noqa: E402
from daemon import Daemon  # noqa: E402

OK, NOT_FOUND = 0, 5
CLIENTS = 3
# Enough for what is stored between two fresh folders, so that nothing is expired.
HIGH = "4000000000"


def content(number):
    """A blob of its own for each number, from a few bytes to a hundred thousand."""
    size = random.Random(number).choice([9, 1000, 1000, 20_000, 100_000])
    return (b"blob %d " % number).ljust(size, b"%d" % (number % 10))


class Uploads:
    """Clients that upload until the daemon is gone: what they sent, and what was answered as stored."""
    def __init__(self, target, first):
        self.target, self.next, self.lock = target, first, threading.Lock()
        self.sent, self.stored = set(), set()
        self.threads = [threading.Thread(target=self.upload) for _ in range(CLIENTS)]
        for thread in self.threads:
            thread.start()

    def upload(self):
        with grpc.insecure_channel(self.target) as channel:
            update = channel.unary_unary(rex.CAS + "BatchUpdateBlobs")
            while True:
                with self.lock:
                    numbers = range(self.next, self.next + 4)
                    self.next += 4
                    self.sent.update(numbers)
                blobs = [content(n) for n in numbers]
                try:
                    codes = rex.updated(update(rex.update(zip(blobs, blobs)), timeout=20))
                except grpc.RpcError:
                    return
                with self.lock:
                    self.stored.update(n for n, code in zip(numbers, codes) if code == OK)

    def join(self):
        for thread in self.threads:
            thread.join()


def check(target, sent, stored):
    """Reads all that was sent: what was stored is there, and whatever is there has its bytes."""
    numbers = sorted(sent)
    with grpc.insecure_channel(target) as channel:
        read = channel.unary_unary(rex.CAS + "BatchReadBlobs")
        for at in range(0, len(numbers), 30):
            part = numbers[at:at + 30]
            for number, (found, code) in zip(part, rex.given(read(rex.read([content(n) for n in part]), timeout=60))):
                assert code in (OK, NOT_FOUND), f"blob {number}: code {code}"
                assert code == OK or number not in stored, f"blob {number} was stored and is not there"
                assert code == NOT_FOUND or found == content(number), f"blob {number} has other bytes"


def main():
    kills = int(sys.argv[1])
    chance = random.Random(1)
    place = tempfile.mkdtemp()
    sent, stored, first, total = set(), set(), 0, 0
    start = time.monotonic()
    for kill in range(kills):
        daemon = Daemon(place, "--quota-low", HIGH, "--quota-high", HIGH)
        assert "listening" in daemon.told, daemon.told
        check(daemon.target, sent, stored)
        if len(sent) > 3000:
            # A fresh folder now and then, so that a restart stays short.
            daemon.kill()
            shutil.rmtree(daemon.folder)
            sent, stored = set(), set()
            daemon = Daemon(place, "--quota-low", HIGH, "--quota-high", HIGH)
        uploads = Uploads(daemon.target, first)
        time.sleep(chance.uniform(0.01, 0.15))
        daemon.kill()
        uploads.join()
        first, total = uploads.next, total + len(uploads.stored)
        sent |= uploads.sent
        stored |= uploads.stored
        if (kill + 1) % 100 == 0:
            print(f"{kill + 1} kills, {total} blobs answered as stored, {time.monotonic() - start:.0f} s", flush=True)
    daemon = Daemon(place, "--quota-low", HIGH, "--quota-high", HIGH)
    check(daemon.target, sent, stored)
    daemon.end()
    shutil.rmtree(place)
    print(f"{kills} kills, {total} blobs answered as stored, none lost and none wrong")


if __name__ == "__main__":
    main()
