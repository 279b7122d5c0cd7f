"""What each artefact of a release holds."""
import gzip
import os
import re
import subprocess

from packing import LINK, File, below, deb, tar_gz, text, wheel

TOP = os.path.dirname(os.path.dirname(os.path.dirname(os.path.realpath(__file__))))
TARGET = "x86_64-unknown-linux-gnu"
SHORT = "x86_64-linux-gnu"
SHARED = "libcargo_lock.so.1"
PKG_CONFIG = """prefix=${pcfiledir}/../..
includedir=${prefix}/include
libdir=${prefix}/lib

Name: cargo_lock
Description: Reads and writes Cargo.lock, V1 to V4, by a proved library
Version: VERSION
Cflags: -I${includedir}
Libs: -L${libdir} -lcargo_lock
"""
CONTROL = """Package: cargo-lock
Version: VERSION
Architecture: amd64
Maintainer: Zekunfa maintainers <maintainers@users.noreply.zekunfa.example>
Depends: libc6 (>= NEEDED)
Section: devel
Priority: optional
Description: lists, translates, draws, compares and checks Cargo.lock files
 A reader and writer of Cargo.lock, V1 to V4, whose answers are proved.
"""
METADATA = """Metadata-Version: 2.1
Name: proved-cargo-lock
Version: VERSION
Summary: Reads Cargo.lock, V1 to V4, by a proved library
License: MIT OR Apache-2.0
Requires-Python: >=3.9
Classifier: Typing :: Typed
Description-Content-Type: text/markdown

"""
WHEEL = """Wheel-Version: 1.0
Generator: tools/release
Root-Is-Purelib: false
Tag: TAG
"""


def read(path):
    with open(path, "rb") as file:
        return file.read()


def own(path):
    """Returns the bytes of a file of the repository."""
    return read(f"{TOP}/{path}")


def oldest_glibc(path, least=(2, 0)):
    """Returns the oldest version of glibc that has each symbol that a file needs."""
    words = ["readelf", "-V", path]
    said = subprocess.run(words, capture_output=True, text=True, check=True).stdout
    found = [tuple(map(int, it.split("."))) for it in re.findall(r"GLIBC_([0-9.]+)", said)]
    return ".".join(map(str, max([least, *found])[:2]))


def licences(built):
    """Returns the licences of this project, and those of the crates of the kit that are linked."""
    names = ("LICENSE-APACHE", "LICENSE-MIT")
    return [*(text(it, own(it)) for it in names), *below("licenses-of-kit", built.licences)]


def completions():
    names = {"bash": "cargo-lock.bash", "zsh": "_cargo-lock", "fish": "cargo-lock.fish"}
    return [text(f"complete/{to}", own(f"completions/cargo-lock.{it}")) for it, to in names.items()]


def program_archive(built):
    files = [File("cargo-lock", 0o755, read(built.program)), text("README.md", own("README.md"))]
    files += [text("doc/cargo-lock.1", own("docs/cargo-lock.1")), *completions(), *licences(built)]
    name = f"cargo-lock-{built.version}-{SHORT}"
    return f"{name}.tar.gz", tar_gz(below(name, files), built.epoch)


def library_archive(built):
    config = PKG_CONFIG.replace("VERSION", built.version)
    files = [
        text("include/cargo_lock.h", own("bindings/c/cargo_lock.h")),
        text("lib/libcargo_lock.a", read(built.archive)),
        File(f"lib/{SHARED}", 0o755, read(built.shared)),
        File("lib/libcargo_lock.so", LINK, SHARED),
        text("lib/pkgconfig/cargo_lock.pc", config),
        text("share/doc/cargo_lock/example.c", own("bindings/c/example.c")),
        text("share/doc/cargo_lock/merge.c", own("bindings/c/merge.c")),
        *licences(built),
    ]
    name = f"libcargo_lock-{built.version}-{SHORT}"
    return f"{name}.tar.gz", tar_gz(below(name, files), built.epoch)


def debian_package(built):
    page = gzip.compress(own("docs/cargo-lock.1"), 9, mtime=0)
    places = {
        "usr/share/bash-completion/completions/cargo-lock": "bash",
        "usr/share/zsh/vendor-completions/_cargo-lock": "zsh",
        "usr/share/fish/vendor_completions.d/cargo-lock.fish": "fish",
    }
    files = [
        File("usr/bin/cargo-lock", 0o755, read(built.program)),
        text("usr/share/man/man1/cargo-lock.1.gz", page),
        *(text(to, own(f"completions/cargo-lock.{it}")) for to, it in places.items()),
        text("usr/share/doc/cargo-lock/copyright", own("LICENSE-MIT")),
        *below("usr/share/doc/cargo-lock", licences(built)),
    ]
    needed = oldest_glibc(built.program)
    control = CONTROL.replace("VERSION", built.version).replace("NEEDED", needed)
    return f"cargo-lock_{built.version}_amd64.deb", deb(control, files, built.epoch)


MODULE = ("__init__.py", "_calls.py", "_lockfile.py", "py.typed")


def python_wheel(built):
    major, minor = oldest_glibc(built.shared, (2, 17)).split(".")
    tag = f"py3-none-manylinux_{major}_{minor}_x86_64"
    info = f"proved_cargo_lock-{built.version}.dist-info"
    metadata = METADATA.replace("VERSION", built.version).encode() + own("README.md")
    files = [
        *(text(f"cargo_lock/{it}", own(f"bindings/python/cargo_lock/{it}")) for it in MODULE),
        File(f"cargo_lock/{SHARED}", 0o755, read(built.shared)),
        text(f"{info}/METADATA", metadata),
        text(f"{info}/WHEEL", WHEEL.replace("TAG", tag)),
        *below(f"{info}/licenses", licences(built)),
    ]
    name = f"proved_cargo_lock-{built.version}-{tag}.whl"
    return name, wheel(info, files, built.epoch)


SOURCES = ("lib.rs", "calls.rs", "json.rs", "lockfile.rs")


def rust_crate(built):
    manifest = own("bindings/rust/Cargo.toml").decode().replace("publish = false\n", "")
    files = [text("Cargo.toml", manifest), text("build.rs", own("bindings/rust/build.rs"))]
    files += [text(f"src/{it}", own(f"bindings/rust/src/{it}")) for it in SOURCES]
    files += [text(f"native/{TARGET}/libcargo_lock.a", read(built.archive)), *licences(built)]
    name = f"proved-cargo-lock-{built.version}"
    return f"{name}.crate", tar_gz(below(name, files), built.epoch)


ALL = (program_archive, library_archive, debian_package, python_wheel, rust_crate)
