"""Ports that nobody listens on."""
import random
import socket


def free_port() -> int:
    """One of those that the system gives to nobody by itself, so that no connection takes it before it is used."""
    while True:
        port = random.SystemRandom().randrange(10_000, 32_000)
        with socket.socket() as one:
            try:
                one.bind(("127.0.0.1", port))
                return port
            except OSError:
                continue
