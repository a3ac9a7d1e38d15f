"""A daemon on a new socket, for as long as a test needs it."""
import os
import subprocess
import time

PROGRAM = os.environ.get("CASD", os.path.join(os.path.dirname(os.path.abspath(__file__)), "../../crates/casd/out/casd"))


class Daemon:
    def __init__(self, place, *words):
        self.socket, self.folder = os.path.join(place, "casd.sock"), os.path.join(place, "cas")
        self.process = subprocess.Popen([PROGRAM, "serve", self.socket, self.folder, *words], stdout=subprocess.PIPE, stderr=subprocess.PIPE, text=True)
        for _ in range(500):
            if os.path.exists(self.socket) or self.process.poll() is not None:
                break
            time.sleep(0.01)
        self.told = self.process.stderr.readline()

    @property
    def target(self):
        return f"unix:{self.socket}"

    def end(self):
        """Ends it in order: its status, and what it printed."""
        os.remove(self.socket)
        out, told = self.process.communicate(timeout=30)
        self.told += told
        return self.process.returncode, out

    def kill(self):
        self.process.kill()
        self.process.communicate()
