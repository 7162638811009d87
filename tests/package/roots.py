"""A clean root: Debian's essential packages and those that a package depends on, copied from this machine, with nothing else in it.

So it needs no network. What runs in it sees its own /proc, this machine's /dev, and no process of outside.
"""
import os
import pathlib
import re
import shutil
import subprocess
import tempfile

LEFT_OUT = ("/usr/share/doc/", "/usr/share/man/", "/usr/share/locale/", "/usr/share/info/", "/usr/share/zoneinfo/")
MERGED = ("bin", "sbin", "lib", "lib32", "lib64", "libx32")  # which are links to those of /usr
USERS = "root:x:0:0:root:/root:/bin/bash\nnobody:x:65534:65534:nobody:/nonexistent:/usr/sbin/nologin\n"
GROUPS = "root:x:0:\nnogroup:x:65534:\n"
MOUNTED = 'mount -t proc proc "$1/proc" && mount --bind /dev "$1/dev" && root=$1 && shift && exec chroot %s "$root" "$@"'
ENVIRONMENT = {"PATH": "/usr/sbin:/usr/bin:/sbin:/bin", "LC_ALL": "C.UTF-8", "HOME": "/root", "DEBIAN_FRONTEND": "noninteractive"}


def is_root():
    return os.geteuid() == 0


class Packages:
    """The packages of this machine, by name: what each depends on, and whether it is essential."""

    def __init__(self):
        form = "${Package}\t${Essential}\t${Pre-Depends}, ${Depends}\t${Provides}\t${db:Status-Status}\n"
        told = subprocess.run(["dpkg-query", "-W", "-f", form], capture_output=True, text=True, check=True).stdout
        self.needs, self.essential, self.providers = {}, [], {}
        for line in told.splitlines():
            name, essential, needs, provides, status = line.split("\t")
            if status == "installed":
                self.needs[name] = needs
                self.essential += [name] if essential == "yes" else []
                for other in re.findall(r"[a-z0-9][a-z0-9+.-]+(?=\s*(?:\(|,|$))", provides):
                    self.providers.setdefault(other, name)

    def of(self, name):
        """The installed package of a name, or one that stands for it, or None."""
        return name if name in self.needs else self.providers.get(name)

    def below(self, wanted):
        """These packages and the essential ones, with all that they depend on."""
        found, todo = set(), [*self.essential, *wanted]
        while todo:
            name = todo.pop()
            if name in found:
                continue
            found.add(name)
            for clause in filter(None, map(str.strip, self.needs[name].split(","))):
                names = [re.match(r"\s*([a-z0-9][a-z0-9+.-]+)", one)[1] for one in clause.split("|")]
                there = next(filter(None, map(self.of, names)), None)
                if there is None:
                    raise LookupError("%s needs %s, which isn't installed" % (name, clause))
                todo.append(there)
        return sorted(found)


def files_of(names):
    """The files of packages, without documents."""
    told = subprocess.run(["dpkg-query", "-L", *names], capture_output=True, text=True, check=True).stdout
    return sorted({line for line in told.splitlines() if line.startswith("/") and not line.startswith(LEFT_OUT)
                   and (os.path.islink(line) or os.path.isfile(line))})


def copy(root, paths):
    """Copies files of this machine into a root, each to its own path."""
    listed = "\0".join(path.lstrip("/") for path in paths).encode()
    with tempfile.TemporaryFile() as room:
        room.write(listed)
        room.seek(0)
        with subprocess.Popen(["tar", "-C", "/", "-cf", "-", "--null", "-T", "-"], stdin=room, stdout=subprocess.PIPE) as packing:
            subprocess.run(["tar", "-C", root, "-xpf", "-"], stdin=packing.stdout, check=True)
    if packing.returncode:
        raise OSError("tar ended with status %d" % packing.returncode)


def make(root, wanted):
    """Makes a root with these packages in it, as they are installed here."""
    names = Packages().below(wanted)
    for name in MERGED:
        if os.path.islink("/" + name):
            (root / name).symlink_to(os.readlink("/" + name))
            (root / os.readlink("/" + name)).mkdir(parents=True, exist_ok=True)
    for name in ("proc", "dev", "tmp", "root", "etc", "run", "var/lib/dpkg/info", "var/lib/dpkg/updates", "var/log", "var/cache"):
        (root / name).mkdir(parents=True, exist_ok=True)
    (root / "tmp").chmod(0o1777)
    copy(root, [*files_of(names), *map(str, pathlib.Path("/etc/alternatives").iterdir())])
    (root / "etc/passwd").write_text(USERS)
    (root / "etc/group").write_text(GROUPS)
    (root / "var/lib/dpkg/status").write_text(subprocess.run(["dpkg-query", "-s", *names], capture_output=True, text=True,
                                                             check=True).stdout)
    for name in names:
        for path in pathlib.Path("/var/lib/dpkg/info").glob("%s[.:]*list" % name):
            shutil.copy(path, root / "var/lib/dpkg/info")
    subprocess.run(["ldconfig", "-r", root], check=True)


def words_in(root, words, user=None):
    """The command that runs these words in a root, as a user of it where this is root's."""
    new = ["unshare", "--mount", "--pid", "--fork", "--kill-child", *([] if is_root() else ["--map-root-user"])]
    as_user = "--userspec=%s" % user if user and is_root() else ""
    return [*new, "sh", "-c", MOUNTED % as_user, "sh", str(root), *words]


def listing(root):
    """All that stands in a root but what dpkg notes of its work, with what each file is."""
    found = {}
    for folder, folders, names in os.walk(root):
        inside = os.path.relpath(folder, root)
        if inside in ("proc", "dev", "var/lib/dpkg", "var/log"):
            folders.clear()
            continue
        for name in names + folders:
            path = os.path.join(folder, name)
            about = os.lstat(path)
            found[os.path.join(inside, name)] = (about.st_mode, about.st_size if not os.path.isdir(path) else None)
    return found
