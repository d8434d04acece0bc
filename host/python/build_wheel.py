"""The build backend of pyproject.toml (PEP 517), by the standard library alone.

The wheel has the package chaldoref: the module as __init__.py, py.typed, and the shared library, which host/make-shared makes
from the static one of dist/ or of CHALDOREF_LIB_DIR.
"""
import base64
import hashlib
import re
import subprocess
import sysconfig
import tempfile
import zipfile
from pathlib import Path

HERE = Path(__file__).resolve().parent
TOP = HERE.parent.parent
PLATFORM = "linux_x86_64"
#: All files of the wheel have the earliest date that a zip file can have, so that the same sources make the same bytes.
DATE = (1980, 1, 1, 0, 0, 0)


def version():
    """The module's version, read and not imported, since the import needs the library."""
    return re.search(r'^__version__ = "(.*)"$', (HERE / "chaldoref.py").read_text(encoding="utf-8"), re.MULTILINE).group(1)


def metadata():
    """The files of the folder .dist-info but RECORD."""
    readme = (TOP / "docs/PYTHON.md").read_text(encoding="utf-8")
    head = [
        "Metadata-Version: 2.1", "Name: chaldoref", f"Version: {version()}", "Summary: A verified reader of QuickTime movie tables",
        "License: Apache-2.0 OR MIT", "Requires-Python: >=3.7", "Description-Content-Type: text/markdown",
    ]
    wheel = ["Wheel-Version: 1.0", "Generator: chaldoref", "Root-Is-Purelib: false", f"Tag: py3-none-{PLATFORM}"]
    files = {"METADATA": "\n".join(head) + "\n\n" + readme, "WHEEL": "\n".join(wheel) + "\n"}
    for name in ("LICENSE-APACHE", "LICENSE-MIT"):
        files[name] = (TOP / name).read_text(encoding="utf-8")
    return {f"chaldoref-{version()}.dist-info/{name}": text.encode() for name, text in files.items()}


def shared_library():
    """The bytes of the shared library."""
    with tempfile.TemporaryDirectory() as folder:
        made = Path(folder) / "libchaldoref.so.1"
        subprocess.run([TOP / "host/make-shared", made], check=True)
        return made.read_bytes()


def record(files):
    """RECORD: each file with its sha256 and its length."""
    name = f"chaldoref-{version()}.dist-info/RECORD"
    lines = [f"{path},sha256={digest(data)},{len(data)}" for path, data in files.items()]
    return name, "\n".join([*lines, f"{name},,"]).encode() + b"\n"


def digest(data):
    return base64.urlsafe_b64encode(hashlib.sha256(data).digest()).rstrip(b"=").decode()


def build_wheel(wheel_directory, config_settings=None, metadata_directory=None):
    """Writes the wheel into a folder, and gives its name."""
    if sysconfig.get_platform().replace("-", "_") != PLATFORM:
        raise SystemExit(f"chaldoref: the library is for Linux on x86-64, and this is {sysconfig.get_platform()}")
    files = {
        "chaldoref/__init__.py": (HERE / "chaldoref.py").read_bytes(),
        "chaldoref/py.typed": (HERE / "py.typed").read_bytes(),
        "chaldoref/libchaldoref.so.1": shared_library(),
        **metadata(),
    }
    name, data = record(files)
    files[name] = data
    wheel = f"chaldoref-{version()}-py3-none-{PLATFORM}.whl"
    with zipfile.ZipFile(Path(wheel_directory) / wheel, "w", zipfile.ZIP_DEFLATED) as archive:
        for path, data in files.items():
            entry = zipfile.ZipInfo(path, DATE)
            entry.external_attr, entry.compress_type = 0o644 << 16, zipfile.ZIP_DEFLATED
            archive.writestr(entry, data)
    return wheel


def build_sdist(sdist_directory, config_settings=None):
    """There is no source distribution: the repository is it."""
    raise NotImplementedError("install it from the repository: pip install ./host/python")
