"""A MooseFS of three chunk servers and a master, for a trial that runs apart."""
import os

from servers import SERVERS, call, wait_for

WORD = "moosefs"
PROGRAMS = ("mfsmaster", "mfschunkserver", "mfsmount", "mfssetgoal")
PACKAGES = "moosefs-master moosefs-chunkserver moosefs-client"
STORES, METADATA = ("chunks.0", "chunks.1", "chunks.2"), "master"
SESSION_SECONDS = 60  # SESSION_SUSTAIN_TIME, which is a day where nothing else is said
LOCK_SECONDS = 240  # within which the lock of a machine that is cut off goes
FIRST_PORT = 9430
ALIKE = """WORKING_USER = root
WORKING_GROUP = root
NICE_LEVEL = 0
DISABLE_OOM_KILLER = 0
DATA_PATH = {top}/{name}
"""
MASTER = """EXPORTS_FILENAME = {top}/exports
CHANGELOG_SAVE_MODE = 2
SESSION_SUSTAIN_TIME = {seconds}
MATOML_LISTEN_HOST = {servers}
MATOCS_LISTEN_HOST = {servers}
MATOCL_LISTEN_HOST = {servers}
"""
STORE = """HDD_CONF_FILENAME = {top}/{name}/disks
HDD_LEAVE_SPACE_DEFAULT = 256MiB
HDD_FSYNC_BEFORE_CLOSE = 1
MASTER_HOST = {servers}
MASTER_RECONNECTION_DELAY = 1
BIND_HOST = {servers}
CSSERV_LISTEN_HOST = {servers}
CSSERV_LISTEN_PORT = {port}
"""


def room(place):
    """The bytes that are free there; the three stores stand on one disk, and each has its room."""
    try:
        told = os.statvfs(place)
    except OSError:
        return 0
    return told.f_bavail * told.f_frsize


class Engine:
    def __init__(self, top, programs):
        self.top, self.programs = top, programs

    def put(self, name, text):
        with open(os.path.join(self.top, name), "w") as file:
            file.write(text)

    def server(self, name):
        """Starts the server. A master that was killed makes its last state again by its log of changes."""
        words = ["mfsmaster", "-a"] if name == METADATA else ["mfschunkserver"]
        self.programs.start(name, *words, "-f", "-c", os.path.join(self.top, f"{name}.cfg"), "start")

    def start(self):
        for name in (METADATA, *STORES):
            os.mkdir(os.path.join(self.top, name))
        self.put(f"{METADATA}/metadata.mfs", "MFSM NEW")
        self.put("exports", "* / rw,alldirs,admin,maproot=0:0\n* . rw\n")
        told = {"top": self.top, "servers": SERVERS, "seconds": SESSION_SECONDS}
        self.put(f"{METADATA}.cfg", (ALIKE + MASTER).format(name=METADATA, **told))
        self.server(METADATA)
        for number, name in enumerate(STORES):
            disk = os.path.join(self.top, f"disk.{number}")
            os.mkdir(disk)
            self.put(f"{name}/disks", f"{disk}\n")
            self.put(f"{name}.cfg", (ALIKE + STORE).format(name=name, port=FIRST_PORT + number, **told))
            self.server(name)

    def mount(self, name, place, network):
        options = f"mfsmaster={SERVERS},mfsnice=0,mfsallowoomkiller,mfsdelayedinit"
        self.programs.start(name, "mfsmount", "-f", "-o", options, place, network=network)
        wait_for(f"the mount {name}", 60, lambda: os.path.ismount(place))
        wait_for("room in all stores", 120, lambda: room(place) > (len(STORES) - 1) * room(self.top))
        call("nsenter", f"--net=/run/netns/{network}", "mfssetgoal", "-r", "3", place)

    def version(self):
        return call("mfsmaster", "-v").strip()
