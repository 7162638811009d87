"""The gateway beside the front: GTP-U between stations and the Internet, by the kernel's driver (tools/gateway)."""
