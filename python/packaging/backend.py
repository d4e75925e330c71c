"""The build backend that pyproject.toml names: makes the wheel of the package with the shared object, by the standard library alone."""

import base64
import hashlib
import os
import pathlib
import subprocess
import sysconfig
import tempfile
import zipfile
from typing import Any, Dict, List, Optional

ROOT = pathlib.Path(__file__).resolve().parents[2]
PACKAGE = ROOT / "python/starshackle"
OBJECT = "libstarshackle.so"
VERSION = (ROOT / "VERSION").read_text(encoding="utf-8").strip()
INFO = f"starshackle-{VERSION}.dist-info"
# The shared object is for one platform, and for every Python 3, which calls it through ctypes.
TAG = f"py3-none-{sysconfig.get_platform().replace('-', '_').replace('.', '_')}"

METADATA = f"""\
Metadata-Version: 2.1
Name: starshackle
Version: {VERSION}
Summary: Arm's predicated vector stores: the proved model, from Python
Requires-Python: >=3.9
"""
WHEEL = f"""\
Wheel-Version: 1.0
Generator: starshackle
Root-Is-Purelib: false
Tag: {TAG}
"""

Settings = Optional[Dict[str, Any]]


class UnsupportedOperation(Exception):
    """What the backend doesn't do."""


def get_requires_for_build_wheel(config_settings: Settings = None) -> List[str]:
    return []


def get_requires_for_build_sdist(config_settings: Settings = None) -> List[str]:
    return []


def build_sdist(sdist_directory: str, config_settings: Settings = None) -> str:
    raise UnsupportedOperation("there is no archive of sources: the library in it would have to be proved again; build a wheel")


def archive() -> pathlib.Path:
    """The static library: in the folder that a variable names, or the repository's."""
    folder = os.environ.get("STARSHACKLE_LIB_DIR")
    path = (pathlib.Path(folder) if folder else ROOT / "target/staticlib") / "libstarshackle.a"
    if not path.is_file():
        raise SystemExit(f"{path} isn't there: make it with tools/archive, or name a folder that has it by STARSHACKLE_LIB_DIR")
    return path


def contents() -> Dict[str, bytes]:
    """The files of the wheel by name, except the list of them."""
    with tempfile.TemporaryDirectory() as folder:
        made = pathlib.Path(folder, OBJECT)
        subprocess.run([str(ROOT / "python/build"), str(archive()), str(made)], check=True)
        files = {f"starshackle/{OBJECT}": made.read_bytes()}
    for path in sorted(PACKAGE.glob("*.py")):
        files[f"starshackle/{path.name}"] = path.read_bytes()
    files[f"{INFO}/METADATA"] = METADATA.encode()
    files[f"{INFO}/WHEEL"] = WHEEL.encode()
    return files


def line(name: str, content: bytes) -> str:
    """A file's line in the list."""
    digest = base64.urlsafe_b64encode(hashlib.sha256(content).digest()).rstrip(b"=").decode()
    return f"{name},sha256={digest},{len(content)}\n"


def build_wheel(wheel_directory: str, config_settings: Settings = None, metadata_directory: Optional[str] = None) -> str:
    """Makes the wheel and answers its name. The same files make the same wheel, byte for byte."""
    files = contents()
    listed = "".join(line(name, content) for name, content in files.items()) + f"{INFO}/RECORD,,\n"
    files[f"{INFO}/RECORD"] = listed.encode()
    wheel = f"starshackle-{VERSION}-{TAG}.whl"
    with zipfile.ZipFile(pathlib.Path(wheel_directory, wheel), "w", zipfile.ZIP_DEFLATED) as out:
        for name, content in files.items():
            entry = zipfile.ZipInfo(name)  # of 1980, so that no time of today is in it
            entry.compress_type = zipfile.ZIP_DEFLATED
            entry.external_attr = (0o100755 if name.endswith(OBJECT) else 0o100644) << 16
            out.writestr(entry, content)
    return wheel
