"""Builds the Python package, for pip and for `python3 -m build`: the module, with the shared libraries inside.

The library is linked from the static one in dist/, by tools/shared; BRADOVUSC_LIB_DIR names another folder. What asks about rules in the
notation is built by cargo, by tools/asking. Nothing else is needed, and nothing is fetched.

The hooks are those of PEP 517. The same sources give the same names and metadata; times in the archives are SOURCE_DATE_EPOCH, or 1980.
"""

from __future__ import annotations

import base64
import gzip
import hashlib
import io
import os
import re
import subprocess
import tarfile
import tempfile
import time
import zipfile
from pathlib import Path
from typing import Dict, Iterator, Optional

TOP = Path(__file__).resolve().parent.parent.parent
MODULE = TOP / "foreign/python/bradovusc"
VERSION = re.search(r'^VERSION = "(.*)"$', (MODULE / "_library.py").read_text(), re.M)[1]
NAME = f"bradovusc-{VERSION}"
TAG = "py3-none-linux_x86_64"

METADATA = f"""Metadata-Version: 2.1
Name: bradovusc
Version: {VERSION}
Summary: Can two part-label rules make the same label?
License: MIT
Requires-Python: >=3.8
Classifier: License :: OSI Approved :: MIT License
Classifier: Operating System :: POSIX :: Linux
Classifier: Programming Language :: Python :: 3
Classifier: Typing :: Typed
Description-Content-Type: text/markdown

"""

WHEEL = f"""Wheel-Version: 1.0
Generator: bradovusc {VERSION}
Root-Is-Purelib: false
Tag: {TAG}
"""

#: What the package is built from: folders with all that is in them, and files.
SOURCES = (
    "LICENSE",
    "README.md",
    "dist/KIT",
    "dist/README.md",
    "dist/SHA256SUMS",
    "dist/libbradovusc.a",
    "dist/libbradovusc.exports",
    "foreign/README.md",
    "foreign/asking",
    "foreign/c",
    "foreign/notation",
    "foreign/python",
    "foreign/rust",
    "pyproject.toml",
    "second",
    "tools/archive",
    "tools/asking",
    "tools/release",
    "tools/shared",
)

#: Folders that are built, and never a source.
BUILT = {"target", "__pycache__"}


def build_wheel(wheel_directory: str, config_settings: Optional[dict] = None, metadata_directory: Optional[str] = None) -> str:
    """Writes the wheel, and hands back its name."""
    info = f"{NAME}.dist-info"
    members: Dict[str, bytes] = {f"bradovusc/{file.name}": file.read_bytes() for file in _module()}
    members.update({f"bradovusc/{name}": library for name, library in _libraries().items()})
    members[f"{info}/METADATA"] = _metadata()
    members[f"{info}/WHEEL"] = WHEEL.encode()
    members[f"{info}/LICENSE"] = (TOP / "LICENSE").read_bytes()
    lines = [f"{name},sha256={_sum(data)},{len(data)}" for name, data in members.items()]
    members[f"{info}/RECORD"] = "\n".join([*lines, f"{info}/RECORD,,", ""]).encode()
    wheel = f"{NAME}-{TAG}.whl"
    with zipfile.ZipFile(Path(wheel_directory) / wheel, "w", zipfile.ZIP_DEFLATED) as archive:
        for name, data in members.items():
            member = zipfile.ZipInfo(name, time.gmtime(max(_time(), 315532800))[:6])
            member.compress_type = zipfile.ZIP_DEFLATED
            member.external_attr = (0o100755 if ".so" in name else 0o100644) << 16
            archive.writestr(member, data)
    return wheel


def build_sdist(sdist_directory: str, config_settings: Optional[dict] = None) -> str:
    """Writes the sources, and hands back their name."""
    packed = io.BytesIO()
    with tarfile.open(fileobj=packed, mode="w", format=tarfile.PAX_FORMAT) as archive:
        for file in _sources():
            _add(archive, str(file.relative_to(TOP)), file.read_bytes(), file.stat().st_mode & 0o755)
        _add(archive, "PKG-INFO", _metadata(), 0o644)
    sdist = f"{NAME}.tar.gz"
    with open(Path(sdist_directory) / sdist, "wb") as file, gzip.GzipFile("", "wb", 9, file, _time()) as out:
        out.write(packed.getvalue())
    return sdist


def _add(archive: tarfile.TarFile, name: str, data: bytes, mode: int) -> None:
    member = tarfile.TarInfo(f"{NAME}/{name}")
    member.size, member.mode, member.mtime = len(data), mode, _time()
    archive.addfile(member, io.BytesIO(data))


def _module() -> Iterator[Path]:
    """The files of the module."""
    return (file for file in sorted(MODULE.iterdir()) if file.suffix == ".py" or file.name == "py.typed")


def _sources() -> Iterator[Path]:
    """All files that the package is built from."""
    for source in SOURCES:
        if (TOP / source).is_file():
            yield TOP / source
        for file in sorted((TOP / source).rglob("*")):
            if file.is_file() and not BUILT.intersection(file.relative_to(TOP).parts):
                yield file


def _libraries() -> Dict[str, bytes]:
    """The shared libraries, by the names under which the module looks for them beside itself."""
    shared, asking = _tool("shared", "--name"), _tool("asking", "--name")
    with tempfile.TemporaryDirectory() as folder:
        _tool("shared", _tool("archive"), f"{folder}/{shared}")
        _tool("asking", f"{folder}/{asking}")
        return {name: Path(folder, name).read_bytes() for name in (shared, asking)}


def _tool(name: str, *words: str) -> str:
    """What a tool of the repository prints. What it says where it fails is shown."""
    environment = {"BRADOVUSC_LIB_DIR": str(TOP / "dist"), **os.environ}
    return subprocess.check_output(["sh", str(TOP / "tools" / name), *words], env=environment, text=True).strip()


def _metadata() -> bytes:
    return METADATA.encode() + (TOP / "README.md").read_bytes()


def _sum(data: bytes) -> str:
    return base64.urlsafe_b64encode(hashlib.sha256(data).digest()).rstrip(b"=").decode()


def _time() -> int:
    return int(os.environ.get("SOURCE_DATE_EPOCH", "315532800"))
