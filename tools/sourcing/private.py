"""Files that are their owner's alone."""
import os

from tools.sourcing.words import Fault

OF_OTHERS = 0o077  # the bits of a mode that let others in
OF_CREDENTIAL = 0o037  # the same of a service's credential, whose group's bits may be those of its user alone (systemd.exec(5))
MODE = 0o600
ROOT = 0  # root's number


def is_credential(path):
    """Whether a file is one of the credentials of the service that this runs in, whose folder is for its user alone."""
    folder = os.environ.get("CREDENTIALS_DIRECTORY")
    return bool(folder) and os.path.dirname(os.path.realpath(path)) == os.path.realpath(folder)


def check(file, path):
    """Refuses a file that others than its owner may open, or that is somebody else's."""
    found = os.fstat(file)
    if found.st_mode & (OF_CREDENTIAL if is_credential(path) else OF_OTHERS):
        raise Fault("%s: others than its owner may open it (mode %03o): chmod %03o makes it its owner's alone" % (
            path, found.st_mode & 0o777, MODE))
    if found.st_uid not in (ROOT, os.geteuid()):
        raise Fault("%s: it is another user's" % path)


def opened(path):
    """A file that is its owner's alone, open for reading."""
    try:
        file = open(path, "rb")
    except OSError as fault:
        raise Fault("%s: %s" % (path, fault.strerror)) from None
    try:
        check(file.fileno(), path)
    except BaseException:
        file.close()
        raise
    return file


def make(path):
    """Makes a file that is its owner's alone, where there is none; one that is there has to be. Its name is on disk then."""
    try:
        file = os.open(path, os.O_RDWR | os.O_CREAT | os.O_CLOEXEC, MODE)
        try:
            check(file, path)
        finally:
            os.close(file)
        folder = os.open(os.path.dirname(path) or ".", os.O_RDONLY | os.O_DIRECTORY | os.O_CLOEXEC)
        try:
            os.fsync(folder)
        finally:
            os.close(folder)
    except OSError as fault:
        raise Fault("%s: %s" % (path, fault.strerror)) from None
