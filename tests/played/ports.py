"""Ports that are a case's own as long as it is played."""

import random
import socket
from typing import List

PORTS = range(20000, 28000)  # of which the system gives none to whoever asks for any
held: List[socket.socket] = []  # a name for each port: no two processes have the same one


def free_port() -> int:
    """A port that nobody listens to, and that no other case takes."""
    for port in random.SystemRandom().sample(PORTS, len(PORTS)):
        name = socket.socket(socket.AF_UNIX)
        try:
            name.bind(f"\0dgt_replay port {port}")
            with socket.socket() as line:
                line.bind(("127.0.0.1", port))
        except OSError:
            name.close()
            continue
        held.append(name)
        return port
    raise AssertionError("no port is free")
