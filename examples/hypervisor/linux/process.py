"""What the scripts share: a hypervisor as a process, with all that it prints."""

import atexit
import signal
import socket
import subprocess
import sys
import threading
import time


class Process:
    """A hypervisor, with all that it prints."""

    def __init__(self, *words):
        self.out, self.error = bytearray(), bytearray()
        pipe = subprocess.PIPE
        self.process = subprocess.Popen([str(word) for word in words], stdin=pipe, stdout=pipe, stderr=pipe, bufsize=0)
        atexit.register(self.process.kill)
        streams = (self.process.stdout, self.out), (self.process.stderr, self.error)
        self.readers = [threading.Thread(target=self.keep, args=both, daemon=True) for both in streams]
        for reader in self.readers:
            reader.start()

    @staticmethod
    def keep(stream, kept):
        while piece := stream.read(65536):
            kept += piece

    def type(self, line):
        self.process.stdin.write(line.encode() + b"\n")

    def move(self):
        self.process.send_signal(signal.SIGUSR1)

    def wait_for(self, text, kept, seconds=120):
        end = time.monotonic() + seconds
        while text.encode() not in kept:
            has_ended = self.process.poll() is not None
            if has_ended:
                for reader in self.readers:
                    reader.join()
            if time.monotonic() > end or (has_ended and text.encode() not in kept):
                sys.exit(f"no '{text}' in: {kept[-2000:].decode(errors='replace')} {self.error.decode()}")
            time.sleep(0.01)


def free_port():
    with socket.socket() as one:
        one.bind(("127.0.0.1", 0))
        return one.getsockname()[1]
