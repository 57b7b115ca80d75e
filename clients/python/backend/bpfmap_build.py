"""Builds the wheel and the archive of this package, by the standard library alone: so pip needs no network and no setuptools.

The functions are those of PEP 517 and PEP 660; pip calls them.
"""

import base64
import hashlib
import io
import re
import tarfile
import zipfile
from pathlib import Path
from typing import Dict, List, Optional

_HERE = Path(__file__).resolve().parents[1]
_NAME = "bpfmap"
_TAG = "py3-none-any"
_SCRIPTS = "[console_scripts]\nbpfmap-client = bpfmap.command:run\n"
# Files of all archives have this time, so that equal sources give equal archives.
_TIME = (2026, 1, 1, 0, 0, 0)
_HEADER = "../../examples/c/bpfmap.h"


def build_wheel(wheel_directory: str, config_settings: Optional[Dict[str, str]] = None, metadata_directory: Optional[str] = None) -> str:
    """Writes the wheel, and returns its name."""
    return _write_wheel(Path(wheel_directory), _package_files())


def build_editable(
    wheel_directory: str, config_settings: Optional[Dict[str, str]] = None, metadata_directory: Optional[str] = None
) -> str:
    """Writes a wheel that leads to this folder, and returns its name."""
    return _write_wheel(Path(wheel_directory), {f"{_NAME}.pth": f"{_HERE}\n".encode()})


def build_sdist(sdist_directory: str, config_settings: Optional[Dict[str, str]] = None) -> str:
    """Writes the archive of the sources, and returns its name."""
    base = f"{_NAME}-{_version()}"
    files = {**_package_files(), "PKG-INFO": _metadata(), **{name: (_HERE / name).read_bytes() for name in _SOURCES}}
    with tarfile.open(Path(sdist_directory) / f"{base}.tar.gz", "w:gz") as archive:
        for name, content in sorted(files.items()):
            entry = tarfile.TarInfo(f"{base}/{name}")
            entry.size = len(content)
            archive.addfile(entry, io.BytesIO(content))
    return f"{base}.tar.gz"


def get_requires_for_build_wheel(config_settings: Optional[Dict[str, str]] = None) -> List[str]:
    """Returns what a build needs beside Python: nothing."""
    return []


get_requires_for_build_sdist = get_requires_for_build_editable = get_requires_for_build_wheel

_SOURCES = ("README.md", "pyproject.toml", "backend/bpfmap_build.py")


def _package_files() -> Dict[str, bytes]:
    """The package's files, with the header for programs in C."""
    files = {f"{_NAME}/{path.name}": path.read_bytes() for path in sorted((_HERE / _NAME).iterdir()) if path.is_file()}
    header = (_HERE / _HEADER).resolve()
    if header.exists():
        files[f"{_NAME}/{header.name}"] = header.read_bytes()
    return files


def _version() -> str:
    found = re.search(r'^__version__ = "(.*)"$', (_HERE / _NAME / "__init__.py").read_text(encoding="utf-8"), re.MULTILINE)
    if found is None:
        raise RuntimeError("bpfmap/__init__.py has no __version__")
    return found.group(1)


def _project(field: str) -> str:
    """A field of pyproject.toml; older Pythons have no reader of it."""
    found = re.search(rf'^{field} = "(.*)"$', (_HERE / "pyproject.toml").read_text(encoding="utf-8"), re.MULTILINE)
    if found is None:
        raise RuntimeError(f"pyproject.toml has no {field}")
    return found.group(1)


def _metadata() -> bytes:
    head = {
        "Metadata-Version": "2.1",
        "Name": _NAME,
        "Version": _version(),
        "Summary": _project("description"),
        "Requires-Python": _project("requires-python"),
        "Description-Content-Type": "text/markdown",
    }
    lines = "".join(f"{name}: {value}\n" for name, value in head.items())
    return (lines + "\n" + (_HERE / "README.md").read_text(encoding="utf-8")).encode()


def _write_wheel(folder: Path, files: Dict[str, bytes]) -> str:
    base = f"{_NAME}-{_version()}"
    about = f"{base}.dist-info"
    wheel = f"Wheel-Version: 1.0\nGenerator: bpfmap_build\nRoot-Is-Purelib: true\nTag: {_TAG}\n"
    entries = {
        **files,
        f"{about}/METADATA": _metadata(),
        f"{about}/WHEEL": wheel.encode(),
        f"{about}/entry_points.txt": _SCRIPTS.encode(),
    }
    record = "".join(f"{name},sha256={_digest(content)},{len(content)}\n" for name, content in entries.items())
    entries[f"{about}/RECORD"] = f"{record}{about}/RECORD,,\n".encode()
    name = f"{base}-{_TAG}.whl"
    with zipfile.ZipFile(folder / name, "w", zipfile.ZIP_DEFLATED) as archive:
        for path, content in entries.items():
            archive.writestr(zipfile.ZipInfo(path, _TIME), content, zipfile.ZIP_DEFLATED)
    return name


def _digest(content: bytes) -> str:
    return base64.urlsafe_b64encode(hashlib.sha256(content).digest()).rstrip(b"=").decode()
