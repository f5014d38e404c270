"""Runs `esec` with bytes as its input, in pieces, and hands back what it wrote."""

import os
import subprocess
import threading
from pathlib import Path

PROGRAM = Path(__file__).resolve().parent.parent / "crates/esec_node/out/esec_node"


def add_program_option(parser):
    parser.add_argument("--program", type=Path, default=PROGRAM, help="the built program (./esec builds it)")


def is_missing(program):
    """Whether the program isn't there, which is told."""
    if program.is_file():
        return False
    print(f"skipped: there is no program {os.path.relpath(program)}; ./esec builds it")
    return True


def write_pieces(pipe, pieces, last):
    try:
        for piece in pieces:
            left = memoryview(piece)
            while left:
                left = left[os.write(pipe.fileno(), left) :]
    except BrokenPipeError:
        pass  # the program ended before its input did
    if last:
        pipe.close()


class Running:
    """The program with a pipe at each side, with a command and its options. It is killed after so many seconds."""

    def __init__(self, program, secret, seconds, command=("run",)):
        self.process = subprocess.Popen(
            [program, *command, "--admin", secret], stdin=subprocess.PIPE, stdout=subprocess.PIPE, bufsize=0
        )
        self.hung = False
        self.watch = threading.Timer(seconds, self.stop)
        self.watch.daemon = True
        self.watch.start()
        self.writer = None

    def stop(self):
        self.hung = True
        self.process.kill()

    def send(self, pieces, last):
        """Begins to write, beside the reads, and closes the input behind the last pieces."""
        self.writer = threading.Thread(target=write_pieces, args=(self.process.stdin, pieces, last), daemon=True)
        self.writer.start()

    def read(self, count):
        """So many bytes, or fewer where the output ends before."""
        parts = []
        while count > 0:
            part = self.process.stdout.read(min(count, 1 << 20))
            if not part:
                break
            parts.append(part)
            count -= len(part)
        return b"".join(parts)

    def end(self):
        """The status, when all is written."""
        self.writer.join()
        status = self.process.wait()
        self.watch.cancel()
        self.process.stdout.close()
        return status
