"""A program that is handed the phases of a script one after another, and the processor time and the memory that it has taken behind each.

The lines go through a pipe. A phase is over when the pipe is empty and the program sleeps. Its time is what the kernel has counted for the program
since, in nanoseconds, with what the system did for it. So the machine's other work makes a figure greater only by what it takes from the caches.
"""
import fcntl
import os
import pathlib
import re
import struct
import subprocess
import sys
import termios
import time

PIPE_ROOM = 1 << 20
SET_PIPE_SIZE = 1031
A_WHILE = 0.002


class Running:
    def __init__(self, words):
        self.run = subprocess.Popen(words, stdin=subprocess.PIPE, stdout=subprocess.DEVNULL, bufsize=0)
        self.folder = pathlib.Path("/proc", str(self.run.pid))
        self.pipe = self.run.stdin.fileno()
        try:
            fcntl.fcntl(self.pipe, SET_PIPE_SIZE, PIPE_ROOM)
        except OSError:
            pass
        time.sleep(10 * A_WHILE)
        self.taken = self.settle()

    def nanoseconds(self):
        return int((self.folder / "schedstat").read_text().split()[0])

    def waits(self):
        left = struct.unpack("i", fcntl.ioctl(self.pipe, termios.FIONREAD, struct.pack("i", 0)))[0]
        return left == 0 and (self.folder / "stat").read_text().rsplit(")", 1)[1].split()[0] == "S"

    def settle(self):
        """Waits until all lines are answered, and tells the time so far."""
        while self.run.poll() is None:
            if self.waits():
                before = self.nanoseconds()
                time.sleep(A_WHILE)
                if self.waits() and self.nanoseconds() == before:
                    return before
            time.sleep(A_WHILE / 2)
        sys.exit(f"run: a program ended with status {self.run.returncode} amid its script")

    def answer(self, text):
        """Hands over a file, or bytes; the processor time that they take, in nanoseconds."""
        if isinstance(text, bytes):
            self.run.stdin.write(text)
        else:
            with open(text, "rb") as file:
                at, size = 0, os.fstat(file.fileno()).st_size
                while at < size:
                    at += os.sendfile(self.pipe, file.fileno(), at, size - at)
        before, self.taken = self.taken, self.settle()
        return self.taken - before

    def memory(self):
        """The bytes of memory that are its own, without the pages of its file."""
        told = (self.folder / "smaps_rollup").read_text()
        return int(re.search(r"^Anonymous:\s+(\d+) kB$", told, re.MULTILINE)[1]) * 1024

    def end(self):
        self.run.stdin.close()
        return self.run.wait()
