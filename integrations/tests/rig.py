"""A cluster on one machine, for tests. Each test runs in namespaces of its own (mounts, processes, network): when it ends, in whatever way, the kernel
takes away its mounts, its processes and its networks.

A test calls `run_alone(main, seconds)`. `main` is given a Rig: `rig.check(name, wrong)` counts a case, `rig.cluster(..)` starts nodes."""
import glob
import os
import re
import shutil
import signal
import subprocess
import sys
import tempfile
import time
from typing import Any, Callable, Iterable, Optional

HERE = os.path.dirname(os.path.abspath(__file__))
ROOT = os.path.dirname(os.path.dirname(HERE))
ALONE = "NUVNODE_TEST_FOLDER"
WARM = 60  # seconds that a cluster has to serve
PORT = 7400


LIMIT = 200  # seconds of a test; on a machine that has time for it each takes less than a minute
CALM = ("--lease", "20000", "--margin", "1000")  # of nodes that no fault is made of: none fences itself where the machine has no time for it


def run_alone(main: Callable[["Rig"], None], seconds: int = LIMIT) -> None:
    """Runs `main` in namespaces of its own, for so many seconds at most, and ends with its status. Its folder is taken away by who waits for it."""
    if ALONE in os.environ:
        run_in(main, os.environ[ALONE])
    room = tempfile.mkdtemp(prefix="nuvnode-")
    os.chmod(room, 0o711)
    words = ["timeout", "--foreground", "-k", "2", str(seconds), "unshare", "--mount", "--net", "--pid", "--ipc", "--fork", "--kill-child", "--mount-proc"]
    try:
        status = subprocess.run([*words, sys.executable, *sys.argv], env={**os.environ, ALONE: room}, check=False).returncode
    finally:
        shutil.rmtree(room, ignore_errors=True)
    if status in (124, 137):
        print(f"{sys.argv[0]}: took more than {seconds} s\n0 passed, 1 failed")
    sys.exit(1 if status else 0)


def run_in(main: Callable[["Rig"], None], room: str) -> None:
    """Runs `main` in this process, whose namespaces are its own."""
    subprocess.run(["mount", "--make-rprivate", "/"], check=True)
    subprocess.run(["mount", "-t", "tmpfs", "tmpfs", "/run"], check=True)
    subprocess.run(["ip", "link", "set", "lo", "up"], check=True)
    signal.signal(signal.SIGTERM, lambda *_: sys.exit(1))
    rig = Rig(room)
    try:
        main(rig)
    finally:
        rig.end()
    print(f"{rig.passed} passed, {rig.failed} failed")
    sys.exit(1 if rig.failed or not rig.passed else 0)


def wait_for(true: Callable[[], bool], seconds: float, what: str) -> bool:
    """Waits until it is true; whether it came. It tells what did not come, where that has a name."""
    end = time.monotonic() + seconds
    while time.monotonic() < end:
        if true():
            return True
        time.sleep(0.02)
    if what:
        print(f"  not within {seconds} s: {what}")
    return False


class Rig:
    """What a test counts and starts."""

    def __init__(self, room: str) -> None:
        self.room, self.passed, self.failed, self.clusters = room, 0, 0, []
        self.program = os.environ.get("LOCKREPLAY", os.path.join(ROOT, "release/out/lockreplay"))
        self.nuvnode = os.environ.get("NUVNODE", os.path.join(ROOT, "integrations/node/out/nuvnode"))

    def check(self, name: str, wrong: str = "") -> bool:
        """A case: `wrong` says what is wrong, or is empty."""
        self.passed, self.failed = self.passed + (not wrong), self.failed + bool(wrong)
        print(f"{'FAILED' if wrong else 'ok'}: {name}{': ' if wrong else ''}{wrong}", flush=True)
        return not wrong

    def cluster(self, **words: Any) -> "Cluster":
        """Starts a cluster; it serves."""
        cluster = Cluster(self, len(self.clusters), **words)
        self.clusters.append(cluster)
        cluster.begin()
        return cluster

    def end(self) -> None:
        for cluster in self.clusters:
            cluster.end()


class Spaces:
    """A network namespace for each node, on a bridge: 10.77.0.N. What a node sends can be cut off."""

    def __init__(self, nodes: int) -> None:
        self.run("ip", "link", "add", "bridge0", "type", "bridge")
        self.run("ip", "addr", "add", "10.77.0.254/24", "dev", "bridge0")
        self.run("ip", "link", "set", "bridge0", "up")
        for node in range(1, nodes + 1):
            self.run("ip", "netns", "add", f"n{node}")
            self.run("ip", "link", "add", f"veth{node}", "type", "veth", "peer", "name", "eth0", "netns", f"n{node}")
            self.run("ip", "link", "set", f"veth{node}", "master", "bridge0", "up")
            self.run("ip", "-n", f"n{node}", "addr", "add", f"10.77.0.{node}/24", "dev", "eth0")
            for name in ("eth0", "lo"):
                self.run("ip", "-n", f"n{node}", "link", "set", name, "up")

    @staticmethod
    def run(*words: str) -> None:
        subprocess.run(words, check=True)

    def cut(self, node: int) -> None:
        self.run("ip", "link", "set", f"veth{node}", "down")

    def join(self, node: int) -> None:
        self.run("ip", "link", "set", f"veth{node}", "up")

    @staticmethod
    def inside(node: int) -> list[str]:
        return ["nsenter", f"--net=/run/netns/n{node}"]

    @staticmethod
    def words(_node: int, key: str) -> list[str]:
        return ["--tcp", f"10.77.0.1:{PORT}", "--key", key]

    def stop(self, _node: int) -> list[int]:
        """What is stopped with the daemon of a node."""
        return []

    def end(self) -> None:
        pass


class Corosync(Spaces):
    """A corosync for each node of three, in its namespace, by integrations/corosync.conf."""

    def __init__(self, room: str) -> None:
        super().__init__(3)
        self.room, self.running = room, {}
        self.key = self.make_key("authkey")
        for node in (1, 2, 3):
            self.start(node)

    def make_key(self, name: str) -> str:
        path = os.path.join(self.room, name)
        subprocess.run(["corosync-keygen", "-l", "-k", path], check=True, stdout=subprocess.DEVNULL)
        return path

    def start(self, node: int, key: Optional[str] = None) -> None:
        folder = os.path.join(self.room, f"corosync{node}")
        os.makedirs(folder, exist_ok=True)
        with open(os.path.join(ROOT, "integrations/corosync.conf"), encoding="utf-8") as file:
            text = file.read()
        text = text.replace("/etc/corosync/authkey", key or self.key).replace("/var/lib/corosync", folder)
        with open(os.path.join(folder, "corosync.conf"), "w", encoding="utf-8") as file:
            file.write(text)
        words = [*self.inside(node), "unshare", "--mount", "sh", "-c", f"mount -t tmpfs tmpfs /run; exec corosync -f -c {folder}/corosync.conf"]
        with open(os.path.join(folder, "out"), "ab") as out:
            self.running[node] = subprocess.Popen(words, stdout=out, stderr=out, stdin=subprocess.DEVNULL)

    def sees(self, node: int) -> int:
        """How many members the node's corosync has."""
        told = subprocess.run([*self.inside(node), "corosync-quorumtool", "-l"], capture_output=True, text=True, check=False).stdout
        return len(re.findall(r"^\s+\d+\s+\d+\s", told, re.MULTILINE))

    def kill(self, node: int) -> None:
        self.running[node].kill()
        self.running[node].wait()

    def stop(self, node: int) -> list[int]:
        return [self.running[node].pid]

    @staticmethod
    def words(_node: int, _key: str) -> list[str]:
        return ["--corosync"]

    def end(self) -> None:
        for node in self.running:
            self.kill(node)


class Cluster:
    """Nodes 1 to N over one folder."""

    def __init__(self, rig: Rig, number: int, nodes: int = 3, options: Iterable[str] = (), net: Optional[Spaces] = None) -> None:
        self.rig, self.nodes, self.options, self.net = rig, nodes, list(options), net
        self.folder = os.path.join(rig.room, f"c{number}")
        self.backing, self.port, self.daemons = os.path.join(self.folder, "data"), PORT + number, {}
        os.makedirs(self.backing)
        self.key = os.path.join(self.folder, "key")
        with open(self.key, "wb") as file:
            file.write(os.urandom(32))
        for node in range(1, nodes + 1):
            os.makedirs(self.mount(node))
            os.makedirs(self.state(node))

    def mount(self, node: int) -> str:
        return os.path.join(self.folder, f"mnt{node}")

    def state(self, node: int) -> str:
        return os.path.join(self.folder, f"node{node}")

    def path(self, node: int, name: str) -> str:
        return os.path.join(self.mount(node), name)

    def start(self, node: int) -> None:
        """Starts the daemon of a node."""
        words = [self.rig.nuvnode, "--node", str(node), "--nodes", str(self.nodes), "--backing", self.backing, "--folder", self.state(node)]
        words += ["--program", self.rig.program, *self.options]
        words += self.net.words(node, self.key) if self.net else ["--tcp", f"127.0.0.1:{self.port}", "--key", self.key]
        subprocess.run(["umount", "-l", self.mount(node)], stderr=subprocess.DEVNULL, check=False)
        with open(self.said(node), "ab") as out:
            inside = self.net.inside(node) if self.net else []
            self.daemons[node] = subprocess.Popen([*inside, *words, self.mount(node)], stderr=out, stdout=out, stdin=subprocess.DEVNULL)

    def said(self, node: int) -> str:
        return os.path.join(self.folder, f"node{node}.out")

    def text(self, node: int) -> str:
        """What the daemon of a node said."""
        with open(self.said(node), encoding="utf-8", errors="replace") as file:
            return file.read()

    def say(self, node: int, line: str) -> str:
        return subprocess.run([self.rig.nuvnode, "say", self.state(node), line], capture_output=True, text=True, check=False).stdout

    def serves(self, node: int) -> bool:
        return " serves " in self.say(node, "status") and os.path.ismount(self.mount(node))

    def begin(self) -> None:
        for node in range(1, self.nodes + 1):
            self.start(node)
        if not all(wait_for(lambda node=node: self.serves(node), WARM, f"node {node} serves") for node in range(1, self.nodes + 1)):
            for node in range(1, self.nodes + 1):
                print(self.text(node))
            raise SystemExit("the cluster does not begin")

    def alive(self, node: int) -> bool:
        return node in self.daemons and self.daemons[node].poll() is None

    def kill(self, node: int, how: signal.Signals = signal.SIGKILL) -> None:
        self.daemons[node].send_signal(how)
        if how == signal.SIGKILL:
            self.daemons[node].wait()

    def seats(self, node: int) -> list[int]:
        """The processes of the daemon's seats."""
        told = subprocess.run(["pgrep", "-P", str(self.daemons[node].pid)], capture_output=True, text=True, check=False).stdout
        return [int(pid) for pid in told.split()]

    def stop(self, node: int, whole: bool = True) -> list[int]:
        """Stops the daemon and its seats, and with the whole machine its corosync too."""
        pids = [*(self.net.stop(node) if self.net and whole else []), self.daemons[node].pid, *self.seats(node)]
        for pid in pids:
            os.kill(pid, signal.SIGSTOP)
        return pids

    def declare(self, node: int) -> None:
        """The operator's word that a node failed, where the members don't find it out by themselves."""
        if not self.finds_out():
            self.say(1, f"declare {node}")

    def finds_out(self) -> bool:
        return bool(self.net and self.net.__class__ is not Spaces)

    def again(self, node: int) -> bool:
        """Begins the daemon anew, until it serves."""
        self.start(node)
        return wait_for(lambda: self.serves(node), WARM, f"node {node} serves again")

    def end(self) -> None:
        asked = [node for node in self.daemons if self.alive(node)]
        for node in asked:
            self.daemons[node].terminate()
        for node, daemon in self.daemons.items():
            try:
                daemon.wait(5)
            except subprocess.TimeoutExpired:
                daemon.kill()
                daemon.wait()
            if node in asked and daemon.returncode not in (0, 3):  # (3: the others were gone before it)
                self.rig.check(f"the daemon of node {node} ends when it is asked to", f"status {daemon.returncode}: {self.text(node)[-800:]}")
            subprocess.run(["umount", "-l", self.mount(node)], stderr=subprocess.DEVNULL, check=False)

    def logs(self) -> list[str]:
        """The logs that have a whole first block."""
        found = []
        for log in sorted(glob.glob(os.path.join(self.folder, "node*/*.log"))):
            with open(log, "rb") as file:
                if b"\nend 0\n" in file.read(4096):
                    found.append(log)
        return found

    def merge(self, *words: str) -> tuple[int, str]:
        """The status of `merge`, and what it wrote; the nodes have ended."""
        journal = os.path.join(self.folder, "journal")
        ran = subprocess.run([self.rig.program, "merge", *self.logs(), "--journal", journal, *words], capture_output=True, text=True, check=False)
        return ran.returncode, ran.stdout + ran.stderr

    def audit(self) -> tuple[int, str]:
        ran = subprocess.run([self.rig.program, "audit", os.path.join(self.folder, "journal")], capture_output=True, text=True, check=False)
        return ran.returncode, ran.stdout + ran.stderr

    def judge_logs(self, name: str) -> int:
        """Ends the nodes: all logs are one run of the proved rule, or it is a failure."""
        self.end()
        status, said = self.merge()
        if not self.rig.check(f"{name}: the logs merge: {said.strip()[:80]}" if not status else f"{name}: the logs merge", said[:400] if status else ""):
            return 0
        status, told = self.audit()
        self.rig.check(f"{name}: audit", "" if not status and told.strip().endswith("yes") else told[:300])
        return int(re.search(r"entries (\d+)", said)[1])
