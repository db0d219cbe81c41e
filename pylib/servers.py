"""The programs and networks of a trial that runs apart: each program has a name and is ended by its id."""
import os, subprocess, time

SERVERS = "10.77.0.1"  # the address of all servers, which each network reaches by a link of its own


class Never(Exception):
    """What was waited for didn't come."""


def call(*words, seconds=120):
    """What a program prints that has to end well."""
    ended = subprocess.run(words, stdin=subprocess.DEVNULL, capture_output=True, text=True, timeout=seconds)
    if ended.returncode != 0:
        raise Never(f"{' '.join(words)}: status {ended.returncode}, {ended.stdout[-300:]} {ended.stderr[-600:]}")
    return ended.stdout


def wait_for(what, seconds, holds):
    """Asks again and again until it holds; the seconds that it took."""
    begin = time.monotonic()
    while not holds():
        if time.monotonic() - begin > seconds:
            raise Never(f"{what}: not within {seconds} seconds")
        time.sleep(0.2)
    return time.monotonic() - begin


class Programs:
    """Those that run, by name. What one prints stands in a file of its name."""

    def __init__(self, top):
        self.top, self.running = top, {}

    def start(self, name, *words, network=None):
        inside = ["nsenter", f"--net=/run/netns/{network}"] if network else []
        with open(os.path.join(self.top, f"{name}.log"), "ab") as log:
            self.running[name] = subprocess.Popen([*inside, *words], stdin=subprocess.DEVNULL, stdout=log, stderr=log)

    def runs(self, name):
        return self.running[name].poll() is None

    def kill(self, name):
        program = self.running.pop(name)
        program.kill()
        program.wait()


def make_networks(names):
    """A network for each name, linked with the servers and with no other. /run is one of this trial's own."""
    call("mount", "-t", "tmpfs", "run", "/run")
    call("ip", "link", "set", "lo", "up")
    call("ip", "address", "add", f"{SERVERS}/32", "dev", "lo")
    for number, name in enumerate(names, 1):
        near, far = f"10.77.{number}.1", f"10.77.{number}.2"
        call("ip", "netns", "add", name)
        call("ip", "link", "add", name, "type", "veth", "peer", "name", "eth0", "netns", name)
        call("ip", "address", "add", f"{near}/24", "dev", name)
        call("ip", "link", "set", name, "up")
        call("ip", "-n", name, "address", "add", f"{far}/24", "dev", "eth0")
        for link in ("lo", "eth0"):
            call("ip", "-n", name, "link", "set", link, "up")
        call("ip", "-n", name, "route", "add", "default", "via", near)


def cut(name):
    """From here on nothing comes through, as where a cable is drawn."""
    call("ip", "link", "set", name, "down")


def join(name):
    call("ip", "link", "set", name, "up")
