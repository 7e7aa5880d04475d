"""Builds the package with Python alone, so that `pip install ./planning` needs no network and no other package.

It has the hooks of PEP 517 and PEP 660, which pip calls in this folder's parent. The facts are those of pyproject.toml,
which the package's own reader of TOML reads.
"""
import base64
import hashlib
import os
import sys
import tarfile
import zipfile
from typing import Any, Dict, List, Optional, Tuple

TOP = os.path.dirname(os.path.dirname(os.path.abspath(__file__)))
SOURCES = os.path.join(TOP, "src")
PACKAGE = "cloner_planning"
TAG = "py3-none-any"
FIXED_TIME = (1980, 1, 1, 0, 0, 0)
KEPT = (".py", ".typed", ".md")
Settings = Optional[Dict[str, Any]]

sys.dont_write_bytecode = True
sys.path.insert(0, SOURCES)

from cloner_planning.places import read_places  # noqa: E402  (the path comes first)


def project() -> Dict[str, Any]:
    """Returns the table `project` of pyproject.toml."""
    table: Dict[str, Any] = read_places(os.path.join(TOP, "pyproject.toml")).data["project"]
    return table


def stem() -> str:
    """Returns name and version as file names have them."""
    return f"{PACKAGE}-{project()['version']}"


def metadata() -> str:
    """Returns the text of METADATA."""
    facts = project()
    lines = ["Metadata-Version: 2.1", f"Name: {facts['name']}", f"Version: {facts['version']}",
             f"Summary: {facts['description']}", f"Requires-Python: {facts['requires-python']}",
             "Description-Content-Type: text/markdown"]
    for extra, needs in facts["optional-dependencies"].items():
        lines += [f"Provides-Extra: {extra}"] + [f'Requires-Dist: {need}; extra == "{extra}"' for need in needs]
    with open(os.path.join(TOP, facts["readme"]), encoding="utf-8") as file:
        return "\n".join(lines) + "\n\n" + file.read()


def info_files() -> List[Tuple[str, bytes]]:
    """Returns the files of the folder NAME.dist-info but RECORD."""
    scripts = "".join(f"{name} = {place}\n" for name, place in project()["scripts"].items())
    wheel = f"Wheel-Version: 1.0\nGenerator: package_build\nRoot-Is-Purelib: true\nTag: {TAG}\n"
    texts = {"METADATA": metadata(), "WHEEL": wheel, "entry_points.txt": f"[console_scripts]\n{scripts}"}
    return [(f"{stem()}.dist-info/{name}", text.encode()) for name, text in texts.items()]


def package_files() -> List[Tuple[str, bytes]]:
    """Returns the files of the package, by their paths below src/."""
    found = []
    for folder, folders, names in os.walk(os.path.join(SOURCES, PACKAGE)):
        folders.sort()
        for name in sorted(names):
            if name.endswith(KEPT):
                path = os.path.join(folder, name)
                with open(path, "rb") as file:
                    found.append((os.path.relpath(path, SOURCES).replace(os.sep, "/"), file.read()))
    return found


def record_line(name: str, data: bytes) -> str:
    """Returns a file's line in RECORD."""
    digest = base64.urlsafe_b64encode(hashlib.sha256(data).digest()).rstrip(b"=").decode()
    return f"{name},sha256={digest},{len(data)}\n"


def write_wheel(folder: str, files: List[Tuple[str, bytes]]) -> str:
    """Writes a wheel with these files and the facts, and returns its name."""
    name = f"{stem()}-{TAG}.whl"
    files = files + info_files()
    record = f"{stem()}.dist-info/RECORD"
    lines = "".join(record_line(*file) for file in files) + f"{record},,\n"
    with zipfile.ZipFile(os.path.join(folder, name), "w", zipfile.ZIP_DEFLATED) as wheel:
        for path, data in files + [(record, lines.encode())]:
            entry = zipfile.ZipInfo(path, FIXED_TIME)
            entry.external_attr = 0o644 << 16
            entry.compress_type = zipfile.ZIP_DEFLATED
            wheel.writestr(entry, data)
    return name


def build_wheel(wheel_directory: str, config_settings: Settings = None,
                metadata_directory: Optional[str] = None) -> str:
    """Writes the wheel and returns its name (PEP 517)."""
    return write_wheel(wheel_directory, package_files())


def build_editable(wheel_directory: str, config_settings: Settings = None,
                   metadata_directory: Optional[str] = None) -> str:
    """Writes a wheel that leads to the sources, and returns its name (PEP 660)."""
    return write_wheel(wheel_directory, [(f"__editable__.{PACKAGE}.pth", (SOURCES + "\n").encode())])


def build_sdist(sdist_directory: str, config_settings: Settings = None) -> str:
    """Writes the sources as an archive and returns its name (PEP 517)."""
    name = f"{stem()}.tar.gz"
    with tarfile.open(os.path.join(sdist_directory, name), "w:gz", format=tarfile.PAX_FORMAT) as archive:
        for part in ("pyproject.toml", project()["readme"], "build_backend", "src"):
            archive.add(os.path.join(TOP, part), f"{stem()}/{part}", filter=without_caches)
    return name


def without_caches(entry: tarfile.TarInfo) -> Optional[tarfile.TarInfo]:
    """Returns an entry of the archive, or None for a folder of compiled files."""
    return None if os.path.basename(entry.name) == "__pycache__" else entry
