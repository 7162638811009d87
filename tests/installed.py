#!/usr/bin/env python3
"""Looks for the Debian packages that the tests use (tests/packages), and as root installs what is missing.

    installed.py [LIST]

Prints a line `missing: PACKAGE, WHAT FOR` for each package that isn't there in the end, and nothing where all are. LIST is another
list of packages, or `-`. Where all are there no network is needed; else, as root and with apt, those that are missing are
installed, and what apt says is shown if it fails. Ends with 0, or under CI=true with 1 where a package is missing; with 2 where
the list can't be read.
"""
import argparse
import collections
import os
import pathlib
import shutil
import subprocess
import sys

LIST = pathlib.Path(__file__).resolve().parent / "packages"
APT = ["apt-get", "-q", "-y", "-o", "DPkg::Lock::Timeout=300"]

# A package's name, the command or the path of a file that shows that it is there, and which tests use it for what.
Package = collections.namedtuple("Package", "name shown_by purpose")


class BadList(Exception):
    """A line of the list that isn't of its form."""


def read(path):
    """The packages of a list, or of standard input at `-`."""
    text = sys.stdin.read() if path == "-" else pathlib.Path(path).read_text(encoding="utf-8")
    packages = []
    for number, line in enumerate(text.splitlines(), 1):
        if line and not line.startswith("#"):
            words = line.split(maxsplit=2)
            if len(words) < len(Package._fields):
                raise BadList("%s, line %d: not a package, a command or file, and what it is for" % (path, number))
            packages.append(Package(*words))
    return packages


def is_there(package):
    if package.shown_by.startswith("/"):
        return pathlib.Path(package.shown_by).exists()
    return shutil.which(package.shown_by) is not None


def is_ci():
    """Whether this run may leave nothing out."""
    return os.environ.get("CI") == "true"


def left_out(count, why):
    """Says that tests are left out; returns how many of them count as failed, which under CI=true are all."""
    print("%s: %d (%s)" % ("FAILED, left out under CI=true" if is_ci() else "left out", count, why))
    return count if is_ci() else 0


def apt(*words):
    """Runs apt, and shows what it says if it fails."""
    done = subprocess.run(APT + list(words), stdin=subprocess.DEVNULL, stdout=subprocess.PIPE, stderr=subprocess.STDOUT,
                          check=False, env={**os.environ, "DEBIAN_FRONTEND": "noninteractive"})
    if done.returncode:
        print("installed.py: apt-get %s ended with status %d:" % (" ".join(words), done.returncode), file=sys.stderr)
        print(done.stdout.decode(errors="replace").rstrip(), file=sys.stderr)


def install(packages):
    """Installs each on its own, so that one that isn't to be had keeps back no other."""
    print("installed.py: installing %s" % " ".join(package.name for package in packages), file=sys.stderr)
    apt("update")
    for package in packages:
        apt("install", "--no-install-recommends", package.name)


def main():
    parser = argparse.ArgumentParser(description=__doc__, formatter_class=argparse.RawDescriptionHelpFormatter)
    parser.add_argument("list", metavar="LIST", nargs="?", default=LIST)
    try:
        packages = read(parser.parse_args().list)
    except (OSError, BadList) as fault:
        print("installed.py: %s" % fault, file=sys.stderr)
        return 2
    missing = [package for package in packages if not is_there(package)]
    if missing and os.geteuid() == 0 and shutil.which("apt-get"):
        install(missing)
        missing = [package for package in missing if not is_there(package)]
    for package in missing:
        print("missing: %s, %s" % (package.name, package.purpose))
    return 1 if missing and is_ci() else 0


if __name__ == "__main__":
    sys.exit(main())
