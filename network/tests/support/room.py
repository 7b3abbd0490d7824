"""Machines on this one: each has a root, an address and a systemd of its own, on a wire that delays and loses."""
import asyncio
import ctypes
import fcntl
import os
import pathlib
import random
import shutil
import struct
import subprocess
import threading
import time

TAP, NEW = 0x1002, 0x40000000  # IFF_TAP without a header before frames; CLONE_NEWNET
SET_INTERFACE, BROADCAST = 0x400454CA, b"\xff" * 6
CGROUPS = pathlib.Path("/sys/fs/cgroup/unified"), pathlib.Path("/sys/fs/cgroup")
MASKED = ["sysctl.service", "modules-load.service", "binfmt.service", "remount-fs.service", "tmpfiles-setup.service"]
MASKED += ["tmpfiles-setup-dev.service", "update-utmp.service", "sysusers.service", "timesyncd.service"]
MASKED += ["udevd.service", "udev-trigger.service", "networkd.service", "resolved.service", "random-seed.service"]
BOOT = """set -e
echo $$ > {cgroup}/cgroup.procs
exec unshare --pid --fork --kill-child --mount --net --uts --ipc --cgroup sh -ec '
mount --make-rprivate /
mount -t tmpfs tmpfs {folder}
mkdir {folder}/upper {folder}/work {folder}/root
mount -t overlay overlay -o lowerdir={root},upperdir={folder}/upper,workdir={folder}/work {folder}/root
cd {folder}/root
mount --rbind /dev dev
mount -t proc proc proc
mount -t sysfs sysfs sys
mount -t cgroup2 none sys/fs/cgroup
mount -t tmpfs tmpfs run
mount -t tmpfs tmpfs tmp
{given}
mkdir -p media/stick run/lock run/old
mount --bind {stick} media/stick
hostname {name}
echo {name} > etc/hostname
rm -f etc/hosts
printf "{hosts}" > etc/hosts
for unit in {masked}; do ln -sf /dev/null etc/systemd/system/systemd-$unit; done
{cleaning}
pivot_root . run/old
umount -l /run/old
mount --make-rshared /
export container=walrus
exec /lib/systemd/systemd --system --unit=basic.target --log-target=journal --show-status=0 </dev/null >/dev/null 2>&1
'"""


def lacking() -> str:
    """What is not here that machines need."""
    if os.getuid():
        return "root"
    names = [it for it in ("ip", "unshare", "nsenter", "etcd", "etcdctl") if shutil.which(it) is None]
    files = ["/lib/systemd/systemd", "/lib/systemd/system/etcd.service", "/dev/net/tun"]
    names += [it for it in files if not pathlib.Path(it).exists()]
    names += [] if "overlay" in pathlib.Path("/proc/filesystems").read_text() else ["overlayfs"]
    names += [] if any(map(may_group, CGROUPS)) else ["a second version of cgroups to make groups in"]
    spaces = ["unshare", "--pid", "--fork", "--mount", "--net", "--uts", "--ipc", "--cgroup", "true"]
    names += (
        [] if names or subprocess.run(spaces, capture_output=True).returncode == 0 else ["leave to make namespaces"]
    )
    return ", ".join(names)


def may_group(top: pathlib.Path) -> bool:
    """Whether groups of processes can be made in a folder."""
    tried = top / f"walrus-room-{os.getpid()}"
    try:
        tried.mkdir()
        made = (tried / "cgroup.procs").exists()
        tried.rmdir()
        return made
    except OSError:
        return False


class Wire(threading.Thread):
    """A switch between machines: each frame comes late, and some never."""

    def __init__(self, delay: float, loss: float):
        super().__init__(daemon=True)
        self.delay, self.loss, self.drawn = delay, loss, random.Random(50)
        self.loop, self.plugs = asyncio.new_event_loop(), set[int]()
        self.known, self.bytes = dict[bytes, int](), 0

    def run(self) -> None:
        self.loop.run_forever()

    def plug(self, process: int) -> None:
        """Gives a machine, in whose network this process is, the interface eth0."""
        made: list[int] = []

        def enter() -> None:
            with open(f"/proc/{process}/ns/net") as inside:
                if ctypes.CDLL(None, use_errno=True).setns(inside.fileno(), NEW):
                    raise OSError(ctypes.get_errno(), "no way into the machine's network")
            made.append(os.open("/dev/net/tun", os.O_RDWR | os.O_NONBLOCK))
            fcntl.ioctl(made[0], SET_INTERFACE, struct.pack("16sH22x", b"eth0", TAP))

        thread = threading.Thread(target=enter)
        thread.start()
        thread.join()
        self.plugs.add(made[0])
        self.loop.call_soon_threadsafe(self.loop.add_reader, made[0], self.take, made[0])

    def take(self, source: int) -> None:
        """Sends on what a machine says."""
        for _ in range(64):
            try:
                frame = os.read(source, 65_536)
            except BlockingIOError:
                return
            except OSError:  # the machine is gone
                self.loop.remove_reader(source)
                self.plugs.discard(source)
                return
            self.known[frame[6:12]] = source
            target = self.known.get(frame[:6])
            for plug in [target] if target is not None and not frame[0] & 1 else self.plugs - {source}:
                if self.drawn.random() >= self.loss:
                    self.loop.call_later(self.delay, self.give, plug, frame)

    def give(self, plug: int, frame: bytes) -> None:
        self.bytes += len(frame)
        try:
            os.write(plug, frame)
        except OSError:  # its queue is full, or the machine is gone
            pass


class Room:
    """Machines by name. Those that are on the wire have the addresses 10.77.0.1 and so on, in their order."""

    def __init__(
        self, folder: pathlib.Path, names: list[str], delay: float, loss: float, root: str, given: list[pathlib.Path]
    ):
        """All machines see the folders that are given, also below /tmp, where else each has files of its own."""
        self.folder, self.names, self.wire, self.root = folder, names, Wire(delay, loss), root
        self.given = [it for it in given if it.is_relative_to("/tmp")]
        self.running, self.processes = dict[str, subprocess.Popen[bytes]](), dict[str, int]()
        top = next(filter(may_group, CGROUPS))
        self.cgroup = top / f"walrus-room-{os.getpid()}"
        (folder / "stick").mkdir()
        self.wire.start()

    def boot(self, name: str, on_wire: bool = True) -> None:
        """Switches a machine on, as fresh as this one is."""
        folder, cgroup = self.folder / name, self.cgroup / name
        folder.mkdir(exist_ok=True)
        cgroup.mkdir(parents=True, exist_ok=True)
        known = ["127.0.0.1 localhost", *(f"10.77.0.{number} {it}" for number, it in enumerate(self.names, 1))]
        words = {"cgroup": cgroup, "folder": folder, "stick": self.folder / "stick", "name": name, "root": self.root}
        words["given"] = "\n".join(f"mkdir -p .{it} && mount -o bind,ro {it} .{it}" for it in self.given)
        words["cleaning"] = (
            "rm -rf etc/walrus var/lib/walrus var/lib/private var/log/journal" if self.root == "/" else ""
        )
        text = BOOT.format(**words, hosts="\\n".join([*known, ""]), masked=" ".join(MASKED))
        self.running[name] = subprocess.Popen(["sh", "-c", text], stdin=subprocess.DEVNULL)
        end = time.monotonic() + 60
        while not (found := self.child(self.running[name].pid)) or not self.is_up(name, found):
            if self.running[name].poll() is not None or time.monotonic() > end:
                raise RuntimeError(f"the machine {name} does not start")
            time.sleep(0.1)
        if on_wire:
            self.wire.plug(found)
            place = f"10.77.0.{self.names.index(name) + 1}/24"
            self.run(name, f"ip link set lo up; ip addr add {place} dev eth0; ip link set eth0 up")
        else:
            self.run(name, "ip link set lo up")

    def child(self, process: int) -> int:
        found = pathlib.Path(f"/proc/{process}/task/{process}/children").read_text().split()
        return int(found[0]) if found else 0

    def is_up(self, name: str, process: int) -> bool:
        """Whether the systemd of a machine answers."""
        self.processes[name] = process
        words = ["nsenter", "-t", str(process), "-a", "systemctl", "is-active", "--quiet", "basic.target"]
        return subprocess.run(words, capture_output=True).returncode == 0

    def run(self, name: str, command: str, seconds: float = 120) -> str:
        """What a command of a shell says on a machine; raises where it fails."""
        line = ["nsenter", "-t", str(self.processes[name]), "-a", "env", "-C", "/root", "bash", "-c", command]
        path = "/usr/local/sbin:/usr/local/bin:/usr/sbin:/usr/bin:/sbin:/bin"
        pipes = {"stdin": subprocess.DEVNULL, "stdout": subprocess.PIPE, "stderr": subprocess.STDOUT}
        ran = subprocess.run(line, env={"PATH": path, "HOME": "/root"}, timeout=seconds, **pipes)
        said = ran.stdout.decode(errors="replace")
        if ran.returncode:
            raise RuntimeError(f"{name}# {command}: status {ran.returncode}: {said}")
        return said

    def off(self, name: str) -> None:
        """Takes the power from a machine; nothing of it is left."""
        process = self.running.pop(name)
        process.kill()
        process.wait()
        end = time.monotonic() + 20
        while pathlib.Path(f"/proc/{self.processes[name]}").exists() and time.monotonic() < end:
            time.sleep(0.1)
        for path in sorted((self.cgroup / name).glob("**/"), reverse=True):
            path.rmdir()

    def close(self) -> None:
        for name in list(self.running):
            self.off(name)
        self.cgroup.rmdir()
