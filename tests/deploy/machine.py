"""Machines for the tests: namespaces, and the file system of this one with a layer over it. So files stand under the paths that
deploy/ names, and nothing of it is left behind. It wants Linux as root, with overlayfs."""
import atexit
import os
import pathlib
import shutil
import subprocess
import sys
import time

from parts import COMPANION, DEPLOY, PROGRAM, ROOT, folder, is_unproved, start, wait_for

LAYER = """
mount --make-rprivate /
mount -t tmpfs none "$0" && mkdir "$0/upper" "$0/work" "$0/root"
mount -t overlay overlay -o "lowerdir=/,upperdir=$0/upper,workdir=$0/work" "$0/root"
cd "$0/root"
mount -t proc proc proc && mount --rbind /dev dev && mount --rbind /sys sys
mount -t tmpfs none run && mount -t tmpfs none tmp && chmod 1777 tmp
hostname "$1" && ip link set lo up
shift
"""
# systemd keeps its groups below one of this machine's own, and leaves the kernel's settings alone.
SYSTEMD = """
mount -t tmpfs none sys/fs/cgroup && mkdir sys/fs/cgroup/systemd
mount -t cgroup -o none,name=systemd cgroup sys/fs/cgroup/systemd
rm -rf etc/systemd/system/*.wants
for unit in sysctl binfmt modules-load remount-fs udevd update-utmp random-seed; do
  ln -sf /dev/null "etc/systemd/system/systemd-$unit.service"
done
exec chroot . env -i container=other PATH=/usr/sbin:/usr/bin:/sbin:/bin /lib/systemd/systemd --unit=basic.target "$@"
"""
GROUPS = [path for path in ("/sys/fs/cgroup/systemd", "/sys/fs/cgroup/unified") if os.path.isdir(path)]
INSIDE = "srv/programs"
HERE = "srv/repository"
ENTERED = "DEPLOY_TEST_ENTERED"


def enter():
    """Begins the test again in a machine of its own."""
    if ENTERED in os.environ:
        return
    if os.geteuid() != 0:
        sys.exit("a machine of its own wants root")
    at = folder()
    # The programs and the repository come along, since they may stand in /tmp or on another disk, which aren't seen from inside.
    inside = f"""
mkdir -p {INSIDE} {HERE}
mount --bind "$1" {HERE} && mount -o remount,bind,ro {HERE}
shift
for name in omptaskd omptask; do
  [ ! -e "$1" ] || install -m 755 "$1" "{INSIDE}/$name"
  shift
done
cd / && exec chroot "$OLDPWD" "$@"
"""
    spaces = "--net --mount --uts --pid --fork --kill-child"
    command = ["unshare", *spaces.split(), "sh", "-ec", LAYER + inside, at, "test"]
    command += [str(ROOT), os.path.abspath(PROGRAM), os.path.abspath(COMPANION)]
    test = pathlib.Path(sys.argv[0]).resolve().relative_to(ROOT)
    command += [sys.executable, f"/{HERE}/{test}", *sys.argv[1:]]
    environment = {**os.environ, "OMPTASKD": f"/{INSIDE}/omptaskd", "OMPTASK": f"/{INSIDE}/omptask", ENTERED: "1"}
    # git takes the repository for a stranger's where it isn't root's.
    environment |= {"GIT_CONFIG_COUNT": "1", "GIT_CONFIG_KEY_0": "safe.directory", "GIT_CONFIG_VALUE_0": "*"}
    environment.pop("TMPDIR", None)
    sys.exit(subprocess.run(command, env=environment, cwd="/").returncode)


def install(root="/"):
    """As docs/FLEET.md has it."""
    root = pathlib.Path(root)
    for path, mode, files in (
        ("usr/bin", 0o755, [PROGRAM, COMPANION]),
        ("usr/lib/omptaskd", 0o755, [DEPLOY / name for name in ("tenants", "shard", "journal", "pki")]),
        ("usr/lib/omptaskd", 0o644, DEPLOY.glob("*.py")),
        ("etc/omptaskd", 0o644, DEPLOY.glob("*.cfg")),
        ("etc/systemd/system", 0o644, [*(DEPLOY / "systemd").glob("*.service"), *(DEPLOY / "systemd").glob("*.timer")]),
    ):
        (root / path).mkdir(parents=True, exist_ok=True)
        for file in files:
            if os.path.exists(file):
                name = {PROGRAM: "omptaskd", COMPANION: "omptask"}.get(str(file), os.path.basename(file))
                shutil.copy(file, root / path / name)
                os.chmod(root / path / name, mode)


def removed(path):
    """Removes a group, once its last process has gone."""
    for _ in range(50):
        try:
            return os.rmdir(path)
        except OSError:
            time.sleep(0.1)


def give_addresses():
    """Units have no LimitAS, for a program that couldn't run in it."""
    at = pathlib.Path("/etc/systemd/system/service.d")
    at.mkdir(parents=True, exist_ok=True)
    (at / "addresses.conf").write_text("[Service]\nLimitAS=infinity\n")


class Machine:
    """A machine that systemd begins, on the bridge of the one that the test is in."""

    bridge = None

    def __init__(self, name, address):
        self.name, self.address, self.at = name, address, folder()
        if Machine.bridge is None:
            Machine.bridge = "bridge"
            if is_unproved():
                give_addresses()
            for words in ("add bridge type bridge", "set bridge up"):
                subprocess.run(["ip", "link", *words.split()], check=True)
            subprocess.run(["ip", "addr", "add", "192.0.2.100/24", "dev", "bridge"], check=True)
        self.groups = [f"{path}/deploy-test-{time.time_ns()}-{name}" for path in GROUPS]
        into = "".join(f"mkdir {group}; echo $$ > {group}/cgroup.procs; " for group in self.groups)
        into += 'exec unshare --net --mount --uts --ipc --cgroup --pid --fork --kill-child sh -ec "$@"'
        self.outer = start(["sh", "-ec", into, "sh", LAYER + SYSTEMD, self.at, name], log=f"/tmp/{name}.log", cwd="/")
        atexit.register(self.end)
        self.pid = None
        wait_for(self.has_begun, f"the machine {name}")
        link = f"to-{name[:8]}"
        subprocess.run(
            ["ip", "link", "add", link, "type", "veth", "peer", "name", "eth0", "netns", str(self.pid)], check=True
        )
        subprocess.run(["ip", "link", "set", link, "master", "bridge", "up"], check=True)
        self.sh(f"ip addr add {address}/24 dev eth0; ip link set eth0 up")

    def end(self):
        """Ends it as a machine does that loses power."""
        if self.outer.poll() is None:
            self.outer.kill()
            self.outer.wait()
        for group in self.groups:
            for path, _, _ in os.walk(group, topdown=False):
                removed(path)

    def has_begun(self):
        found = subprocess.run(["pgrep", "-P", str(self.outer.pid), "systemd"], capture_output=True, text=True).stdout
        if not found:
            return False
        self.pid = int(found.split()[0])
        return self.run("systemctl", "is-active", "basic.target").stdout.strip() == "active"

    def command(self, *words):
        return ["nsenter", "-t", str(self.pid), "-m", "-u", "-i", "-n", "-p", "-r", "-w", *words]

    def run(self, *words):
        return subprocess.run(self.command(*words), capture_output=True, text=True, timeout=120)

    def sh(self, text):
        """Runs lines of a shell, all of which have to go well."""
        ran = self.run("sh", "-ec", text)
        if ran.returncode:
            raise SystemExit(f"{self.name}: {text}: {ran.stdout}{ran.stderr}")
        return ran.stdout

    def path(self, path):
        """A file of the machine, as it is seen from the test."""
        return f"/proc/{self.pid}/root{path}"
