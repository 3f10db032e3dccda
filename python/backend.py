"""Builds the wheel for pip, by the standard library alone (PEP 517).

The wheel has the proved library in it, linked by shared.sh, which proves it first where that wasn't done yet. A distribution that has the
library in a package of its own asks for a wheel without it:

    pip install --config-settings library=system ./python
"""
import base64
import hashlib
import re
import subprocess
import sysconfig
import tempfile
import zipfile
from pathlib import Path
from typing import Any, Mapping, Optional

HERE = Path(__file__).resolve().parent
PACKAGE = HERE / "navorzim"
(VERSION,) = re.findall(r'^__version__ = "(.*)"$', (PACKAGE / "__init__.py").read_text("utf-8"), re.M)
METADATA = f"""\
Metadata-Version: 2.1
Name: navorzim
Version: {VERSION}
Summary: Plans, checks and rebuilds for small disk arrays coded with XOR
Requires-Python: >=3.9
Classifier: Operating System :: POSIX :: Linux
Classifier: Programming Language :: Python :: Implementation :: CPython
Classifier: Typing :: Typed
Description-Content-Type: text/markdown

"""


def build_wheel(folder: str, config_settings: Optional[Mapping[str, Any]] = None, metadata_directory: Optional[str] = None) -> str:
    """Writes the wheel to the folder and answers its name."""
    library = (config_settings or {}).get("library", "inside")
    if library not in ("inside", "system"):
        raise ValueError(f"library is 'inside' or 'system', not {library!r}")
    files = {f"navorzim/{path.name}": path.read_bytes() for path in sorted(PACKAGE.iterdir()) if path.suffix in (".py", ".typed")}
    platform = "any"
    if library == "inside":
        platform = re.sub("[-.]", "_", sysconfig.get_platform())
        files["navorzim/libnavorzim.so"] = linked()
    name = f"navorzim-{VERSION}-py3-none-{platform}.whl"
    about = f"navorzim-{VERSION}.dist-info"
    files[f"{about}/METADATA"] = METADATA.encode() + (HERE / "README.md").read_bytes()
    pure = "true" if library == "system" else "false"
    files[f"{about}/WHEEL"] = f"Wheel-Version: 1.0\nGenerator: navorzim\nRoot-Is-Purelib: {pure}\nTag: py3-none-{platform}\n".encode()
    record = "".join(f"{path},sha256={digest(content)},{len(content)}\n" for path, content in files.items())
    files[f"{about}/RECORD"] = f"{record}{about}/RECORD,,\n".encode()
    with zipfile.ZipFile(Path(folder) / name, "w", zipfile.ZIP_DEFLATED) as wheel:
        for path, content in files.items():
            # the same files make the same wheel: each has the first date that there is
            entry = zipfile.ZipInfo(path)
            entry.external_attr = (0o755 if path.endswith(".so") else 0o644) << 16
            wheel.writestr(entry, content, zipfile.ZIP_DEFLATED)
    return name


def build_sdist(folder: str, config_settings: Optional[Mapping[str, Any]] = None) -> str:
    """There is none: the library is proved from the repository."""
    raise UnsupportedOperation("the package is built from the repository, which the library is proved in")


class UnsupportedOperation(Exception):
    """The name that PEP 517 gives to what a backend doesn't do."""


def linked() -> bytes:
    """The shared library."""
    script = HERE.parent / "shared.sh"
    if not script.exists():
        raise RuntimeError(f"the library is built in the repository, and there is no {script}; pip before 21.3 builds elsewhere")
    with tempfile.TemporaryDirectory() as folder:
        made = subprocess.run(["sh", str(script), f"{folder}/so"], stdout=subprocess.PIPE, stderr=subprocess.STDOUT, text=True)
        if made.returncode != 0:
            raise RuntimeError(f"the library can't be built:\n{made.stdout}")
        return Path(f"{folder}/so").read_bytes()


def digest(content: bytes) -> str:
    return base64.urlsafe_b64encode(hashlib.sha256(content).digest()).rstrip(b"=").decode()
