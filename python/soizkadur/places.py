"""Where the tools are that parts of this package run: beside it in a clone or an unpacked archive, or the Debian package's."""
import pathlib

INSTALLED = pathlib.Path("/usr/lib/soizkadur/tools")


def tools() -> pathlib.Path:
    """The folder of the tools; the Debian package's where none stands beside this package."""
    beside = pathlib.Path(__file__).resolve().parents[2] / "tools"
    return beside if beside.exists() else INSTALLED
