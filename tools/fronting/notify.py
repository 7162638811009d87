"""What the service manager is told (sd_notify(3)): that the front is ready, what it does, and that it still turns."""
import os
import socket


class Manager:
    """The service manager, where there is one that listens."""

    def __init__(self, environment):
        self.address = environment.get("NOTIFY_SOCKET", "")
        if self.address.startswith("@"):
            self.address = "\0" + self.address[1:]
        mine = environment.get("WATCHDOG_PID", str(os.getpid())) == str(os.getpid())
        period = environment.get("WATCHDOG_USEC", "")
        # Half the time after which it ends a service that is silent.
        self.period = int(period) / 2e6 if mine and period.isdigit() and self.address else None

    def tell(self, **words):
        """Tells it words, as READY=1."""
        if self.address:
            with socket.socket(socket.AF_UNIX, socket.SOCK_DGRAM) as telling:
                telling.setblocking(False)
                try:
                    telling.connect(self.address)
                    telling.send("\n".join("%s=%s" % word for word in words.items()).encode())
                except OSError:
                    pass
