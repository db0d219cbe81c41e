"""A CephFS of three object stores, a monitor and a metadata server, for a trial that runs apart."""
import os, uuid

from servers import SERVERS, call, wait_for

WORD = "cephfs"
PROGRAMS = ("ceph", "ceph-mon", "ceph-osd", "ceph-mds", "ceph-fuse", "monmaptool")
PACKAGES = "ceph-mon ceph-osd ceph-mds ceph-fuse ceph-common"
STORES, METADATA = ("osd.0", "osd.1", "osd.2"), "mds.a"
STORE_BYTES = 1 << 30  # of a file with holes
SESSION_SECONDS, CLOSED_SECONDS = 30, 60  # the file system's session_timeout and session_autoclose
# How often the metadata server writes down what nobody waits for by name. Whoever looks first, through another mount, at a
# file that was just written waits for that: by default up to 5 seconds for each file.
TICK_SECONDS = 0.1
LOCK_SECONDS = 240  # within which the lock of a machine that is cut off goes
CONFIG = """[global]
fsid = {fsid}
mon host = {servers}
public addr = {servers}
cluster addr = {servers}
auth cluster required = none
auth service required = none
auth client required = none
run dir = {top}
admin socket = {top}/$name.$pid.asok
log file =
log to file = false
err to stderr = true
mon data = {top}/mon.a
mds data = {top}/mds.a
osd data = {top}/osd.$id
osd pool default size = 3
osd pool default min size = 2
osd crush chooseleaf type = 0
osd objectstore = bluestore
bluestore block size = {bytes}
bluestore cache autotune = false
bluestore cache size = 67108864
osd op num shards = 2
osd heartbeat interval = 1
osd heartbeat grace = 20
mds beacon grace = 60
mds tick interval = {tick}
mon osd min down reporters = 1
mon osd reporter subtree level = osd
mon osd down out interval = 3600
mon data avail warn = 1
mon data avail crit = 1
"""


class Engine:
    def __init__(self, top, programs):
        self.top, self.programs = top, programs
        self.config = os.path.join(top, "ceph.conf")

    def ceph(self, *words):
        return call("ceph", "-c", self.config, "-n", "client.admin", "--connect-timeout", "30", *words)

    def server(self, name):
        """Starts the server, whose name is its sort and what it is called."""
        sort, _, called = name.partition(".")
        self.programs.start(name, f"ceph-{sort}", "-c", self.config, "-i", called, "-f")

    def start(self):
        fsid, monitors = str(uuid.uuid4()), os.path.join(self.top, "monitors")
        with open(self.config, "w") as file:
            file.write(CONFIG.format(fsid=fsid, servers=SERVERS, top=self.top, bytes=STORE_BYTES, tick=TICK_SECONDS))
        address = f"[v2:{SERVERS}:3300,v1:{SERVERS}:6789]"
        call("monmaptool", "--create", "--fsid", fsid, "--addv", "a", address, monitors)
        call("ceph-mon", "-c", self.config, "-i", "a", "--mkfs", "--monmap", monitors)
        self.server("mon.a")
        for store in STORES:
            name = str(uuid.uuid4())
            os.mkdir(os.path.join(self.top, store))
            number = self.ceph("osd", "new", name).strip()
            call("ceph-osd", "-c", self.config, "-i", number, "--mkfs", "--osd-uuid", name)
            self.server(store)
        os.mkdir(os.path.join(self.top, METADATA))
        for pool in ("metadata", "files"):
            self.ceph("osd", "pool", "create", pool, "8", "8")
        self.ceph("fs", "new", "far", "metadata", "files")
        for setting, value in (("session_timeout", SESSION_SECONDS), ("session_autoclose", CLOSED_SECONDS)):
            self.ceph("fs", "set", "far", setting, str(value))
        self.server(METADATA)
        wait_for("the metadata server", 120, self.is_up)

    def is_up(self):
        return "up:active" in self.ceph("mds", "stat")

    def mount(self, name, place, network):
        self.programs.start(name, "ceph-fuse", "-c", self.config, "-n", "client.admin", "-f", place, network=network)
        wait_for(f"the mount {name}", 60, lambda: os.path.ismount(place))

    def version(self):
        return call("ceph", "--version").strip()
