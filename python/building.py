"""Builds the package of this folder for pip, as PEP 517 and PEP 660 ask: a wheel with its files, one that leads to this folder, or an
archive of the sources. A wheel has the C library if INTERLAKEN_LIBRARY names one when it is built; then it is for this machine only.
The version is the number of include/interlaken.h of the checkout, which an archive of the sources keeps in PKG-INFO."""

from __future__ import annotations

import base64
import hashlib
import io
import os
import re
import sysconfig
import tarfile
import zipfile
from pathlib import Path

HERE = Path(__file__).resolve().parent
HEADER = HERE.parent / "include" / "interlaken.h"
WHEEL = "Wheel-Version: 1.0\nGenerator: interlaken\nRoot-Is-Purelib: %s\nTag: %s\n"
PURE = "py3-none-any"
LIBRARY = "interlaken/libinterlaken.so"


def version() -> str:
    """The number of the header, which counts for the package, too."""
    about = HERE / "PKG-INFO"
    if about.exists():
        return re.findall(r"^Version: (.*)$", about.read_text(encoding="utf-8"), re.M)[0]
    if not HEADER.exists():
        raise SystemExit("interlaken: %s is not there: the package is built in a checkout, by pip 21.3 or later" % HEADER)
    found = re.search(r'^#define INTERLAKEN_VERSION "(.*)"$', HEADER.read_text(encoding="utf-8"), re.M)
    assert found is not None
    return found[1]


def setting(name: str) -> str:
    """A text of pyproject.toml."""
    found = re.search(r'^%s = "(.*)"$' % name, (HERE / "pyproject.toml").read_text(encoding="utf-8"), re.M)
    assert found is not None
    return found[1]


def row(name: str, data: bytes) -> str:
    """The row of a file in the list of a wheel."""
    digest = base64.urlsafe_b64encode(hashlib.sha256(data).digest()).rstrip(b"=").decode()
    return "%s,sha256=%s,%d\n" % (name, digest, len(data))


def metadata() -> bytes:
    """What the package says of itself."""
    lines = "Metadata-Version: 2.1\nName: interlaken\nVersion: %s\nSummary: %s\nRequires-Python: %s\n"
    return (lines % (version(), setting("description"), setting("requires-python"))).encode()


def sources() -> dict[str, bytes]:
    """The package's files."""
    names = sorted(path for path in (HERE / "interlaken").iterdir() if path.suffix in (".py", ".typed"))
    return {"interlaken/" + path.name: path.read_bytes() for path in names}


def write_wheel(folder: str, files: dict[str, bytes]) -> str:
    """Writes a wheel with these files, and gives its name."""
    number = version()
    tag = "py3-none-" + re.sub("[-.]", "_", sysconfig.get_platform()) if LIBRARY in files else PURE
    about = "interlaken-%s.dist-info" % number
    files[about + "/METADATA"] = metadata()
    files[about + "/WHEEL"] = (WHEEL % ("true" if tag == PURE else "false", tag)).encode()
    rows = [row(name, data) for name, data in files.items()]
    files[about + "/RECORD"] = ("".join(rows) + about + "/RECORD,,\n").encode()
    wheel = "interlaken-%s-%s.whl" % (number, tag)
    with zipfile.ZipFile(Path(folder) / wheel, "w") as out:
        for name, data in files.items():
            out.writestr(zipfile.ZipInfo(name), data)
    return wheel


def build_wheel(wheel_directory: str, config_settings: object = None, metadata_directory: object = None) -> str:
    """A wheel with the package's files, and with the C library if INTERLAKEN_LIBRARY names one."""
    files = sources()
    if library := os.environ.get("INTERLAKEN_LIBRARY"):
        if not Path(library).is_file():
            raise SystemExit("interlaken: INTERLAKEN_LIBRARY: %s is not a file" % library)
        files[LIBRARY] = Path(library).read_bytes()
    return write_wheel(wheel_directory, files)


def build_sdist(sdist_directory: str, config_settings: object = None) -> str:
    """An archive of the sources, of which a wheel can be built without the checkout."""
    name = "interlaken-%s" % version()
    own = {each: (HERE / each).read_bytes() for each in ("building.py", "pyproject.toml")}
    with tarfile.open(Path(sdist_directory) / (name + ".tar.gz"), "w:gz") as out:
        for path, data in {**sources(), **own, "PKG-INFO": metadata()}.items():
            entry = tarfile.TarInfo("%s/%s" % (name, path))
            entry.size = len(data)
            out.addfile(entry, io.BytesIO(data))
    return name + ".tar.gz"


def build_editable(wheel_directory: str, config_settings: object = None, metadata_directory: object = None) -> str:
    """A wheel by which Python finds the package in this folder."""
    return write_wheel(wheel_directory, {"interlaken.pth": (str(HERE) + "\n").encode()})
