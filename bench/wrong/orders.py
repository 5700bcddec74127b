"""Orders to a server, a line each: from standard input, a fifo, or a file that is read as it grows."""
import os
import stat
import sys

from .loop import Loop

LOOK_AGAIN = 0.01
PIECE = 4096


class Orders:
    """Reads lines, and calls `obey` with each."""

    def __init__(self, loop: Loop, obey, path=None):
        self.loop, self.obey, self.path = loop, obey, path
        self.file, self.rest = None, b""
        if path is not None:
            self.look_for_file()
        elif sys.stdin is not None:
            self.watch(sys.stdin.fileno())

    def watch(self, file: int) -> None:
        self.file = file
        self.loop.readers[file] = self.read_pipe

    def look_for_file(self) -> None:
        """A fifo is opened for writing too, so that it doesn't end with its first writer."""
        try:
            is_fifo = stat.S_ISFIFO(os.stat(self.path).st_mode)
        except FileNotFoundError:
            self.loop.after(LOOK_AGAIN, self.look_for_file)
            return
        file = os.open(self.path, os.O_RDWR | os.O_NONBLOCK if is_fifo else os.O_RDONLY)
        if is_fifo:
            self.watch(file)
        else:
            self.file = file
            self.read_file()

    def read_pipe(self) -> None:
        try:
            piece = os.read(self.file, PIECE)
        except BlockingIOError:
            return
        except OSError:
            piece = b""
        if piece:
            self.take(piece)
        else:
            self.loop.forget(self.file)

    def read_file(self) -> None:
        while piece := os.read(self.file, PIECE):
            self.take(piece)
        self.loop.after(LOOK_AGAIN, self.read_file)

    def take(self, piece: bytes) -> None:
        *lines, self.rest = (self.rest + piece).split(b"\n")
        for line in lines:
            self.obey(line.strip().decode(errors="replace"))
