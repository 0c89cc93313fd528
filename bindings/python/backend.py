"""Builds the wheel: the package, and the libraries that `bindings/libraries` has put into `bindings/out`, or that stand beside
this file, as in the package of sources. It needs no other tool. The same files make the same bytes."""

import base64
import gzip
import hashlib
import io
import tarfile
import zipfile
from pathlib import Path

HERE = Path(__file__).resolve().parent
OUT = HERE if (HERE / "PKG-INFO").exists() else HERE.parent / "out"
LICENCES = HERE if OUT == HERE else HERE.parent.parent
LIBRARIES = ["libuniversal.so", "libuniversal_shared.so", "libuniversal_text.so"]
NAME, VERSION, TAG = "fednayup_universal", "0.4.0", "py3-none-linux_x86_64"
METADATA = f"""Metadata-Version: 2.1
Name: fednayup-universal
Version: {VERSION}
Summary: Shared objects that no thread can hold up, and runs of scripts
License: MIT OR Apache-2.0
Requires-Python: >=3.9
"""
WHEEL = f"""Wheel-Version: 1.0
Generator: backend
Root-Is-Purelib: false
Tag: {TAG}
"""


def files():
    """The files of the wheel: their names, and their bytes."""
    for file in sorted((HERE / "universal").glob("*.py*")):
        if file.is_file():
            yield f"universal/{file.name}", file.read_bytes()
    yield "universal/py.typed", b""
    for name in LIBRARIES:
        if not (OUT / name).exists():
            raise SystemExit(f"{OUT / name} isn't there: run bindings/libraries first, which builds it")
        yield f"universal/{name}", (OUT / name).read_bytes()
    for licence in ["LICENSE-MIT", "LICENSE-APACHE"]:
        yield f"{NAME}-{VERSION}.dist-info/{licence}", (LICENCES / licence).read_bytes()
    yield f"{NAME}-{VERSION}.dist-info/METADATA", METADATA.encode()
    yield f"{NAME}-{VERSION}.dist-info/WHEEL", WHEEL.encode()


def build_wheel(wheel_directory, config_settings=None, metadata_directory=None):
    """Writes the wheel into a folder, as a front end such as `pip` asks: the name of its file."""
    wheel, record = f"{NAME}-{VERSION}-{TAG}.whl", f"{NAME}-{VERSION}.dist-info/RECORD"
    lines = []
    with zipfile.ZipFile(Path(wheel_directory) / wheel, "w", zipfile.ZIP_DEFLATED) as archive:
        for name, content in files():
            archive.writestr(dated(name), content)
            digest = base64.urlsafe_b64encode(hashlib.sha256(content).digest()).rstrip(b"=").decode()
            lines.append(f"{name},sha256={digest},{len(content)}\n")
        archive.writestr(dated(record), "".join([*lines, f"{record},,\n"]))
    return wheel


def dated(name):
    """An entry of the wheel, with the first time that a zip can tell, so that its bytes don't tell when it was made."""
    entry = zipfile.ZipInfo(name)
    entry.compress_type = zipfile.ZIP_DEFLATED
    entry.external_attr = 0o644 << 16
    return entry


def build_sdist(sdist_directory, config_settings=None):
    """Writes the package of sources, with the libraries and the tests, into a folder: the name of its file."""
    name = f"{NAME}-{VERSION}"
    sources = {"PKG-INFO": METADATA.encode()}
    for file in sorted([HERE / "backend.py", HERE / "pyproject.toml", *HERE.glob("test_*.py"), *HERE.glob("universal/*.py*")]):
        if file.is_file():
            sources[str(file.relative_to(HERE))] = file.read_bytes()
    sources |= {library: (OUT / library).read_bytes() for library in LIBRARIES}
    sources |= {licence: (LICENCES / licence).read_bytes() for licence in ["LICENSE-MIT", "LICENSE-APACHE"]}
    packed = io.BytesIO()
    with tarfile.open(fileobj=packed, mode="w") as archive:
        for path, content in sources.items():
            entry = tarfile.TarInfo(f"{name}/{path}")
            entry.size, entry.mode = len(content), 0o644
            archive.addfile(entry, io.BytesIO(content))
    (Path(sdist_directory) / f"{name}.tar.gz").write_bytes(gzip.compress(packed.getvalue(), mtime=0))
    return f"{name}.tar.gz"
