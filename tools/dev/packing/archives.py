"""The packages as files, of which each byte is given by what is in them: times, owners and order are fixed."""
import io
import os
import shutil
import struct
import subprocess
import tarfile
import zlib

from packing.package_faults import PackageFault
from packing.sources import File, written


def gzipped(data: bytes) -> bytes:
    """As gzip -9n writes it: without a name and a time, of which the one of Python keeps what its release likes."""
    packer = zlib.compressobj(9, zlib.DEFLATED, -zlib.MAX_WBITS)
    head = b"\x1f\x8b\x08\x00" + bytes(4) + b"\x02\x03"
    return head + packer.compress(data) + packer.flush() + struct.pack("<II", zlib.crc32(data), len(data) & 0xFFFFFFFF)


def _member(name: str, seconds: int, kind: bytes, mode: int) -> tarfile.TarInfo:
    member = tarfile.TarInfo(name)
    member.type, member.mode, member.mtime = kind, mode, seconds
    member.uname = member.gname = "root"
    return member


def _folders(paths: list[str]) -> list[str]:
    """All folders that hold the files, above before below."""
    return sorted({path[:at] for path in paths for at in range(len(path)) if path[at] == "/"})


def tarball(files: dict[str, File], top: str, seconds: int) -> bytes:
    packed = io.BytesIO()
    with tarfile.open(fileobj=packed, mode="w", format=tarfile.USTAR_FORMAT) as archive:
        paths = sorted("%s/%s" % (top, path) for path in files)
        for folder in _folders(paths):
            archive.addfile(_member(folder, seconds, tarfile.DIRTYPE, 0o755))
        for path in paths:
            file = files[path[len(top) + 1:]]
            if file.link is not None:
                member = _member(path, seconds, tarfile.SYMTYPE, 0o777)
                member.linkname = file.link
                archive.addfile(member)
                continue
            member = _member(path, seconds, tarfile.REGTYPE, 0o755 if file.is_program else 0o644)
            member.size = len(file.data)
            archive.addfile(member, io.BytesIO(file.data))
    return gzipped(packed.getvalue())


def _date(folder: str, seconds: int) -> None:
    """Gives all below a folder, and itself, one time."""
    for at, folders, names in os.walk(folder, topdown=False):
        for name in [*folders, *names]:
            os.utime(os.path.join(at, name), (seconds, seconds), follow_symlinks=False)
    os.utime(folder, (seconds, seconds))


def debian(files: dict[str, File], seconds: int, room: str) -> bytes:
    if shutil.which("dpkg-deb") is None:
        raise PackageFault("there is no dpkg-deb here, which makes the Debian package; --without-deb leaves that out")
    tree, out = os.path.join(room, "tree"), os.path.join(room, "made.deb")
    before = os.umask(0o022)
    try:
        os.mkdir(tree)
        written(files, tree)
    finally:
        os.umask(before)
    _date(tree, seconds)
    # gzip, since the bytes of xz depend on how many threads it has.
    run = subprocess.run(["dpkg-deb", "--root-owner-group", "-Zgzip", "-z9", "--build", tree, out], stdin=subprocess.DEVNULL, capture_output=True,
                         text=True, env={**os.environ, "SOURCE_DATE_EPOCH": str(seconds), "LC_ALL": "C"}, timeout=600)
    if run.returncode:
        raise PackageFault("dpkg-deb failed: %s" % run.stderr.strip())
    with open(out, "rb") as file:
        return file.read()
