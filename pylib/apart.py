"""A script that runs apart: anew, with processes, mounts and networks of its own, which end with it however it ends."""
import os, signal, subprocess, sys, tempfile

APART = ["setpriv", "--pdeathsig", "KILL", "unshare", "--mount", "--net", "--pid", "--fork", "--kill-child",
         "--mount-proc"]
INSIDE = "KEEPD_APART"  # in the environment of the run that is apart: its folder


def lacks():
    """What this machine lacks for that, or nothing."""
    if os.geteuid() != 0:
        return "it isn't run by root"
    made = subprocess.run([*APART, "true"], stdin=subprocess.DEVNULL, capture_output=True, text=True)
    return made.stderr.strip()


def children(process):
    """The ids of what this process began, and of what these began."""
    try:
        with open(f"/proc/{process}/task/{process}/children") as file:
            began = [int(word) for word in file.read().split()]
    except OSError:
        return []
    return began + [inner for child in began for inner in children(child)]


def end(program):
    """Ends all that is apart, each by its id: one that waits for a mount ends once that mount's program has. The
    first of them ends last."""
    for process in children(program.pid):
        try:
            os.kill(process, signal.SIGKILL)
        except ProcessLookupError:
            pass


def run(words):
    """Runs this script apart, with a folder of its own that goes with it; it prints on standard output alone. Its
    status, 128 and more by a signal."""
    ended_by = []
    with tempfile.TemporaryDirectory(prefix="keepd-far-") as top:
        program = subprocess.Popen([*APART, sys.executable, os.path.realpath(sys.argv[0]), *words],
                                   stdin=subprocess.DEVNULL, stderr=subprocess.DEVNULL, start_new_session=True,
                                   env=os.environ | {INSIDE: top})

        def interrupted(number, _):
            ended_by.append(number)
            end(program)

        for number in (signal.SIGINT, signal.SIGTERM, signal.SIGHUP):
            signal.signal(number, interrupted)
        status = program.wait()
    return 128 + ended_by[0] if ended_by else status
