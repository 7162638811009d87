"""Files that the service manager keeps while the gateway is away (sd_notify(3), FDSTORE): while a socket is open, its device takes
what stations send; and what goes to idle phones waits in theirs."""
import os
import socket

FIRST = 3  # the first file that a service is given (sd_listen_fds(3))


class Kept:
    """The files that were kept, by their names, and what keeps further ones."""

    def __init__(self, environment):
        self.address = environment.get("NOTIFY_SOCKET", "")
        if self.address.startswith("@"):
            self.address = "\0" + self.address[1:]
        self.files = {}
        if environment.get("LISTEN_PID") == str(os.getpid()) and environment.get("LISTEN_FDS", "").isdigit():
            names = environment.get("LISTEN_FDNAMES", "").split(":")
            self.files = {name: FIRST + at for at, name in enumerate(names[:int(environment["LISTEN_FDS"])])}
        for file in self.files.values():
            os.set_inheritable(file, False)
        for name in ("LISTEN_PID", "LISTEN_FDS", "LISTEN_FDNAMES"):
            environment.pop(name, None)

    def tell(self, text, files=()):
        if not self.address:
            return
        with socket.socket(socket.AF_UNIX, socket.SOCK_DGRAM) as telling:
            try:
                telling.connect(self.address)
                socket.send_fds(telling, [text.encode()], files)
            except OSError:
                pass

    def keep(self, name, file):
        """Has a file be kept, whatever may be read of it."""
        self.tell("FDSTORE=1\nFDPOLL=0\nFDNAME=%s" % name, [file])

    def forget(self, name):
        self.tell("FDSTOREREMOVE=1\nFDNAME=%s" % name)

    def take(self, name):
        """A file that was kept; nothing where there is none."""
        return self.files.pop(name, None)

    def close(self):
        """Closes what nobody took."""
        for file in self.files.values():
            os.close(file)
        self.files = {}
