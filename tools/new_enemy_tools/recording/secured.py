"""What a recorder is given in files: the key by which it reads the changes, and what TLS needs; each can be read again."""
import ssl
from typing import Optional


class FileFault(Exception):
    """Why a file can't be used."""


def key_in(path: str) -> str:
    """The key in a file; raises FileFault."""
    try:
        with open(path, encoding="ascii") as file:
            key = file.read().strip()
    except (OSError, UnicodeDecodeError) as fault:
        raise FileFault("--key-file can't be read: %s" % fault) from None
    if not key or not key.isprintable():
        raise FileFault("--key-file has no key on one line")
    return key


def _read(path: str) -> bytes:
    with open(path, "rb") as file:
        return file.read()


def roots_in(ca: Optional[str]) -> Optional[bytes]:
    """The authorities of a file, as gRPC takes them; None for those of the system. Raises FileFault."""
    try:
        return None if ca is None else _read(ca)
    except OSError as fault:
        raise FileFault("--service-ca can't be used: %s" % fault) from None


def context_of(ca: Optional[str]) -> ssl.SSLContext:
    """By what the recorder believes a service: the authorities of the system, or those of a file; raises FileFault."""
    try:
        return ssl.create_default_context(cafile=ca)
    except (OSError, ssl.SSLError) as fault:
        raise FileFault("--service-ca can't be used: %s" % fault) from None


class Certificate:
    """What the application's side of the recorder shows."""

    def __init__(self, chain: str, key: Optional[str]):
        self.chain, self.key = chain, key
        self.context = ssl.create_default_context(ssl.Purpose.CLIENT_AUTH)
        self.context.set_alpn_protocols(["http/1.1"])
        # the key and the certificates, as gRPC takes them
        self.pair = (b"", b"")
        self.load()

    def load(self) -> None:
        """Reads the files; connections from now on are shown what they have. Raises FileFault, and shows what it had."""
        try:
            # What can't be used in part must not be taken in part.
            ssl.create_default_context(ssl.Purpose.CLIENT_AUTH).load_cert_chain(self.chain, self.key, "")
            self.context.load_cert_chain(self.chain, self.key, "")
            self.pair = _read(self.key or self.chain), _read(self.chain)
        except (OSError, ssl.SSLError) as fault:
            raise FileFault("--tls-cert and --tls-key can't be used: %s" % fault) from None
