"""Builds the wheel of the Python package (PEP 517 and PEP 660), with the standard library only: pip builds in an
environment of its own, which without an index has nothing else, and nothing is left in the checkout.

A wheel has both packages, the MIB, the schemas, and the proved program with the record of its proof if there is one:
then it is a wheel of this platform. Without a proof it has no program.
"""

import base64
import calendar
import hashlib
import io
import os
import pathlib
import re
import subprocess
import sys
import sysconfig
import tarfile
import time
import tomllib
import zipfile
from typing import Any, NamedTuple

TOP = pathlib.Path(__file__).resolve().parents[2]
TOOLS = TOP / "tools"
PACKAGES = ("arterial", "streettools")
DATA = "arterial/data"
CARRIED = {
    "ARTERIAL-PROFILE-MIB": "mibs/ARTERIAL-PROFILE-MIB", "ARTERIAL-FRONT-MIB": "mibs/ARTERIAL-FRONT-MIB",
    "scenario.schema.json": "docs/scenario.schema.json", "field.schema.json": "docs/field.schema.json",
}  # fmt: skip
"""What is put into the package's data, by its place in the checkout."""
RECORD = TOP / "crates/arterial/out/proved"
RECORDED = ("sums", "verdict")
"""The files of a proof's record that a wheel has."""
EPOCH = 315_532_800
"""The first second that a zip archive can name: 1980."""


class File(NamedTuple):
    """A file of a wheel: its name there, its content, and whether it can be run."""

    name: str
    content: bytes
    is_program: bool = False


# what a wheel holds


def version() -> str:
    """Returns the version, which is in one place."""
    text = (TOOLS / "streettools/shared/version.py").read_text(encoding="utf-8")
    found = re.search(r'^VERSION = "([^"]+)"', text, re.M)
    assert found
    return found[1]


def project() -> dict[str, Any]:
    """Returns the table of the project."""
    with open(TOP / "pyproject.toml", "rb") as file:
        return dict(tomllib.load(file)["project"])


def modules() -> list[File]:
    """Returns the files of the packages; a tree that was made from a source archive also has its data."""
    found = []
    for package in PACKAGES:
        for path in sorted((TOOLS / package).rglob("*")):
            if path.is_file() and "__pycache__" not in path.parts:
                name = path.relative_to(TOOLS).as_posix()
                found.append(File(name, path.read_bytes(), os.access(path, os.X_OK)))
    return found


def data() -> list[File]:
    """Returns the files that are put into the package's data."""
    found = [File(f"{DATA}/{name}", (TOP / place).read_bytes()) for name, place in CARRIED.items()]
    finder = TOOLS / "proved"
    asked = subprocess.run([finder], capture_output=True, text=True) if finder.exists() else None
    if asked is None or asked.returncode:
        words = asked.stderr.strip() if asked else "there is no checkout here"
        print(f"arterial: the wheel has no program: {words}", file=sys.stderr)
        return found
    program = pathlib.Path(asked.stdout.rstrip("\n"))
    found.append(File(f"{DATA}/program/arterial", program.read_bytes(), True))
    return found + [File(f"{DATA}/proof/{it}", (RECORD / it).read_bytes()) for it in RECORDED if (RECORD / it).exists()]


def files() -> list[File]:
    """Returns all files of the packages, with their data."""
    own = modules()
    return own if any(it.name.startswith(f"{DATA}/") for it in own) else own + data()


def metadata() -> bytes:
    """Returns the metadata of the distribution."""
    it: dict[str, Any] = project()
    lines = ["Metadata-Version: 2.1", f"Name: {it['name']}", f"Version: {version()}", f"Summary: {it['description']}",
             f"Requires-Python: {it['requires-python']}"]  # fmt: skip
    lines += [f"Requires-Dist: {name}" for name in it["dependencies"]]
    for extra, names in it["optional-dependencies"].items():
        lines += [f"Provides-Extra: {extra}", *(f"Requires-Dist: {name}; extra == '{extra}'" for name in names)]
    lines += ["Description-Content-Type: text/markdown", "", (TOP / str(it["readme"])).read_text(encoding="utf-8")]
    return "\n".join(lines).encode()


def tag(has_program: bool) -> str:
    """Returns for which Python and platform a wheel is."""
    return "py3-none-" + (re.sub(r"[-.]", "_", sysconfig.get_platform()) if has_program else "any")


def described(tags: str) -> list[File]:
    """Returns the files that describe a wheel, but for its list of files."""
    folder = f"arterial-{version()}.dist-info"
    is_pure = str(tags.endswith("-any")).lower()
    wheel = f"Wheel-Version: 1.0\nGenerator: arterial\nRoot-Is-Purelib: {is_pure}\nTag: {tags}\n"
    points = "".join(f"{name} = {what}\n" for name, what in project()["scripts"].items())
    return [
        File(f"{folder}/METADATA", metadata()),
        File(f"{folder}/WHEEL", wheel.encode()),
        File(f"{folder}/entry_points.txt", f"[console_scripts]\n{points}".encode()),
    ]


# writing


def moment() -> time.struct_time:
    """Returns the time that all files of an archive get."""
    return time.gmtime(max(EPOCH, int(os.environ.get("SOURCE_DATE_EPOCH", EPOCH))))


def written(folder: str, given: list[File], tags: str) -> str:
    """Writes a wheel into a folder, and returns its name."""
    name, lines = f"arterial-{version()}-{tags}.whl", []
    record = f"arterial-{version()}.dist-info/RECORD"
    with zipfile.ZipFile(pathlib.Path(folder) / name, "w", zipfile.ZIP_DEFLATED) as out:
        for it in given:
            put(out, it)
            digest = base64.urlsafe_b64encode(hashlib.sha256(it.content).digest()).rstrip(b"=").decode()
            lines.append(f"{it.name},sha256={digest},{len(it.content)}\n")
        put(out, File(record, "".join([*lines, f"{record},,\n"]).encode()))
    return name


def put(out: zipfile.ZipFile, it: File) -> None:
    """Puts a file into a wheel."""
    entry = zipfile.ZipInfo(it.name, moment()[:6])
    entry.external_attr = (0o100755 if it.is_program else 0o100644) << 16
    entry.compress_type = zipfile.ZIP_DEFLATED
    out.writestr(entry, it.content)


def build_wheel(folder: str, settings: object = None, metadata_folder: str | None = None) -> str:
    """Writes the wheel (PEP 517)."""
    own = files()
    tags = tag(any(it.name == f"{DATA}/program/arterial" for it in own))
    return written(folder, own + described(tags), tags)


def build_editable(folder: str, settings: object = None, metadata_folder: str | None = None) -> str:
    """Writes a wheel that names this checkout (PEP 660)."""
    tags = tag(False)
    return written(folder, [File("arterial-checkout.pth", f"{TOOLS}\n".encode()), *described(tags)], tags)


def build_sdist(folder: str, settings: object = None) -> str:
    """Writes the source archive (PEP 517): what a wheel is made of, with the package's data."""
    top = f"arterial-{version()}"
    kept = [File(f"tools/{it.name}", it.content, it.is_program) for it in files()]
    own = ("pyproject.toml", "README.md", "tools/wheel/backend.py")
    kept += [File(name, (TOP / name).read_bytes()) for name in own]
    kept.append(File("PKG-INFO", metadata()))
    with tarfile.open(pathlib.Path(folder) / f"{top}.tar.gz", "w:gz", format=tarfile.PAX_FORMAT) as out:
        for it in kept:
            entry = tarfile.TarInfo(f"{top}/{it.name}")
            entry.size, entry.mode = len(it.content), 0o755 if it.is_program else 0o644
            entry.mtime = calendar.timegm(moment())
            out.addfile(entry, io.BytesIO(it.content))
    return f"{top}.tar.gz"
