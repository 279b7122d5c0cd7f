"""Archives with the same bytes each time: names are sorted, owners are root, and the time of each
file is the one that is given."""
import base64
import collections
import gzip
import hashlib
import io
import tarfile
import time
import zipfile

# A file of an archive: its path, its rights, and its bytes.
File = collections.namedtuple("File", "path mode data")
# A link of an archive, with the mode None: `data` is the path to which it leads.
LINK = None
# The first time that a zip archive can have.
FIRST_OF_ZIP = 315532800


def text(path, data):
    return File(path, 0o644, data.encode() if isinstance(data, str) else data)


def folders_of(path):
    """Returns the folders above a path, the highest first."""
    parts = path.split("/")[:-1]
    return ["/".join(parts[: count + 1]) for count in range(len(parts))]


def entry(path, epoch, kind, mode):
    found = tarfile.TarInfo(path)
    found.type, found.mode, found.mtime = kind, mode, epoch
    found.uname = found.gname = "root"
    return found


def tar(files, epoch):
    """Returns a tar archive of the files and of the folders above them."""
    out, seen = io.BytesIO(), set()
    with tarfile.open(fileobj=out, mode="w", format=tarfile.USTAR_FORMAT) as made:
        for path, mode, data in sorted(files):
            for folder in folders_of(path):
                if folder not in seen:
                    seen.add(folder)
                    made.addfile(entry(folder, epoch, tarfile.DIRTYPE, 0o755))
            if mode is LINK:
                link = entry(path, epoch, tarfile.SYMTYPE, 0o777)
                link.linkname = data
                made.addfile(link)
            else:
                file = entry(path, epoch, tarfile.REGTYPE, mode)
                file.size = len(data)
                made.addfile(file, io.BytesIO(data))
    return out.getvalue()


def tar_gz(files, epoch):
    out = io.BytesIO()
    with gzip.GzipFile(filename="", mode="wb", fileobj=out, mtime=epoch, compresslevel=9) as packed:
        packed.write(tar(files, epoch))
    return out.getvalue()


def below(folder, files):
    """Returns the files in a folder."""
    return [it._replace(path=f"{folder}/{it.path}") for it in files]


def deb(control, files, epoch):
    """Returns a package of Debian: `control` is the text of its file of that name."""
    parts = {
        "debian-binary": b"2.0\n",
        "control.tar.gz": tar_gz([text("./control", control)], epoch),
        "data.tar.gz": tar_gz(below(".", files), epoch),
    }
    out = b"!<arch>\n"
    for name, data in parts.items():
        out += f"{name:<16}{epoch:<12}{0:<6}{0:<6}{100644:<8}{len(data):<10}`\n".encode()
        out += data + b"\n" * (len(data) % 2)
    return out


def record(files, path):
    """Returns the list of a wheel's files with their digests, in which its own has none."""
    lines = []
    for it in files:
        digest = base64.urlsafe_b64encode(hashlib.sha256(it.data).digest()).rstrip(b"=").decode()
        lines.append(f"{it.path},sha256={digest},{len(it.data)}\n")
    return "".join([*lines, f"{path},,\n"])


def wheel(info, files, epoch):
    """Returns a wheel of Python: `info` is the folder of its metadata."""
    files = [*files, text(f"{info}/RECORD", record(files, f"{info}/RECORD"))]
    out, when = io.BytesIO(), time.gmtime(max(epoch, FIRST_OF_ZIP))[:6]
    with zipfile.ZipFile(out, "w", zipfile.ZIP_DEFLATED, compresslevel=9) as made:
        for it in files:
            found = zipfile.ZipInfo(it.path, when)
            found.external_attr = (0o100000 | it.mode) << 16
            found.compress_type = zipfile.ZIP_DEFLATED
            made.writestr(found, it.data)
    return out.getvalue()
