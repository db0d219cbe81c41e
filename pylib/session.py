"""The program keepd at the other end of two pipes: each text of lines is timed by itself, from its first
byte to the last byte of its answers, which are compared with those that are wanted."""
import os, subprocess, sys, threading, time

TOP = os.path.realpath(os.path.join(os.path.dirname(os.path.realpath(__file__)), ".."))
GIVEN = os.environ.get("KEEPD")  # a program that is there already
PROGRAM = GIVEN or os.path.join(TOP, "crates", "keep_main", "out", "keep_main")
CHUNK = 1 << 20


def build():
    """Proves and builds the program where that is needed."""
    if not GIVEN:
        subprocess.run([os.path.join(TOP, "keepd")], stdin=subprocess.DEVNULL, check=True)


class Session:
    def __init__(self, program=PROGRAM, environment=None, errors=None, options=(), files=0):
        self.program = subprocess.Popen([program, *options], stdin=subprocess.PIPE, stdout=subprocess.PIPE,
                                        stderr=errors, env=environment)
        self.ask("count\n", f"files {files} marks 0\n")  # the start is over, and isn't timed

    def ask(self, lines, wanted):
        """Seconds until the lines are answered, as is wanted."""
        start = time.monotonic()
        writer = threading.Thread(target=self.write, args=(lines.encode(),))
        writer.start()
        self.expect(lines, wanted.encode())
        took = time.monotonic() - start
        writer.join()
        return took

    def write(self, lines):
        try:
            self.program.stdin.write(lines)
            self.program.stdin.flush()
        except BrokenPipeError:
            pass  # the program has ended, which its answers show

    def expect(self, lines, wanted):
        at = 0
        while at < len(wanted):
            chunk = os.read(self.program.stdout.fileno(), CHUNK)
            if not chunk or not wanted.startswith(chunk, at):
                sys.exit(f"after {lines[:60]!r}: {chunk[:200]!r}, not {wanted[at:at + 200]!r}")
            at += len(chunk)

    def close(self):
        """Ends the script; nothing more may be answered."""
        self.program.stdin.close()
        rest, status = self.program.stdout.read(), self.program.wait()
        if rest or status != 0:
            sys.exit(f"at the end: {rest[:200]!r}, status {status}")
