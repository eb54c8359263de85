"""Builds wheels and source archives of the package (PEP 517, PEP 660). Nothing is fetched, and no other program is started.

The shared object is packed as it stands in `dist/`, beside this folder or, in a source archive, within it.
"""

import base64
import gzip
import hashlib
import io
import os
import re
import tarfile
import zipfile

HERE = os.path.dirname(os.path.abspath(__file__))
NAME = "tubrambutan"
OBJECT = "libtubrambutan.so"
# (the program has the name of the package)
SCRIPT = "tubrambutan-python"
TAGS = ("py3-none-manylinux_2_17_x86_64", "py3-none-manylinux2014_x86_64")
TAG = "py3-none-manylinux_2_17_x86_64.manylinux2014_x86_64"
METADATA = """Metadata-Version: 2.1
Name: tubrambutan
Version: {version}
Summary: Reads Python requirements and merges them into one table, by a library that is proved to do so (this package is tested).
Requires-Python: >=3.9
Provides-Extra: dask
Requires-Dist: distributed ; extra == 'dask'
"""
# All times are the same, so that the bytes are.
EPOCH = 315532800


def _bytes_of(path):
    """Returns the bytes of a file."""
    with open(path, "rb") as it:
        return it.read()


def _object():
    """Returns the bytes of the shared object."""
    for folder in (f"{HERE}/dist", f"{os.path.dirname(HERE)}/dist"):
        if os.path.isfile(f"{folder}/{OBJECT}"):
            return _bytes_of(f"{folder}/{OBJECT}")
    raise FileNotFoundError(f"there is no dist/{OBJECT} in {HERE} or beside it: build the package in a clone of the repository")


def _modules():
    """Returns the files of the package, by their names."""
    found = {}
    for folder, folders, files in os.walk(f"{HERE}/{NAME}"):
        folders[:] = sorted(it for it in folders if it != "__pycache__")
        for name in sorted(files):
            if name == "py.typed" or name.endswith(".py"):
                path = f"{folder}/{name}"
                found[os.path.relpath(path, HERE)] = _bytes_of(path)
    return found


def _version():
    """Returns the version of the package."""
    return re.search(r'__version__ = "([^"]+)"', _bytes_of(f"{HERE}/{NAME}/__init__.py").decode())[1]


def _info():
    """Returns the folder of the metadata in a wheel."""
    return f"{NAME}-{_version()}.dist-info"


def _info_files():
    """Returns the metadata, by the names of its files."""
    tags = "".join(f"Tag: {it}\n" for it in TAGS)
    return {
        f"{_info()}/METADATA": METADATA.format(version=_version()).encode(),
        f"{_info()}/entry_points.txt": f"[console_scripts]\n{SCRIPT} = {NAME}.__main__:main\n".encode(),
        f"{_info()}/WHEEL": f"Wheel-Version: 1.0\nGenerator: {NAME}\nRoot-Is-Purelib: false\n{tags}".encode(),
    }


def _wheel(to, files):
    """Writes the wheel of these files, and returns its name."""
    rows = []
    for name, data in files.items():
        total = base64.urlsafe_b64encode(hashlib.sha256(data).digest()).rstrip(b"=").decode()
        rows.append(f"{name},sha256={total},{len(data)}\n")
    record = f"{_info()}/RECORD"
    files = {**files, record: "".join([*rows, f"{record},,\n"]).encode()}
    wheel = f"{NAME}-{_version()}-{TAG}.whl"
    # (zlib's bytes differ from one version of it to the next: what isn't compressed is the same everywhere)
    with zipfile.ZipFile(f"{to}/{wheel}", "w", zipfile.ZIP_STORED) as it:
        for name, data in files.items():
            entry = zipfile.ZipInfo(name)
            entry.create_system = 3
            entry.external_attr = (0o100755 if name.endswith(".so") else 0o100644) << 16
            it.writestr(entry, data)
    return wheel


def build_wheel(wheel_directory, config_settings=None, metadata_directory=None):
    """Makes the wheel, whose bytes are the same on each machine, and returns its name."""
    return _wheel(wheel_directory, {**_modules(), f"{NAME}/{OBJECT}": _object(), **_info_files()})


def prepare_metadata_for_build_wheel(metadata_directory, config_settings=None):
    """Writes the metadata alone, and returns its folder."""
    for name, data in _info_files().items():
        os.makedirs(os.path.dirname(f"{metadata_directory}/{name}"), exist_ok=True)
        with open(f"{metadata_directory}/{name}", "wb") as it:
            it.write(data)
    return _info()


prepare_metadata_for_build_editable = prepare_metadata_for_build_wheel


def build_editable(wheel_directory, config_settings=None, metadata_directory=None):
    """Makes a wheel that names this folder alone, and returns its name: the package here finds the shared object in `dist/`."""
    return _wheel(wheel_directory, {f"_{NAME}.pth": f"{HERE}\n".encode(), **_info_files()})


def build_sdist(sdist_directory, config_settings=None):
    """Makes a source archive, with the shared object in it, and returns its name."""
    root = f"{NAME}-{_version()}"
    files = {f"{root}/{name}": data for name, data in _modules().items()}
    files[f"{root}/pyproject.toml"] = _bytes_of(f"{HERE}/pyproject.toml")
    files[f"{root}/_backend.py"] = _bytes_of(f"{HERE}/_backend.py")
    files[f"{root}/dist/{OBJECT}"] = _object()
    files[f"{root}/PKG-INFO"] = METADATA.format(version=_version()).encode()
    packed = io.BytesIO()
    with tarfile.open(fileobj=packed, mode="w", format=tarfile.PAX_FORMAT) as it:
        for name, data in sorted(files.items()):
            entry = tarfile.TarInfo(name)
            entry.size, entry.mtime, entry.mode = len(data), EPOCH, 0o644
            it.addfile(entry, io.BytesIO(data))
    with open(f"{sdist_directory}/{root}.tar.gz", "wb") as it:
        with gzip.GzipFile(filename="", fileobj=it, mode="wb", compresslevel=0, mtime=0) as zipped:
            zipped.write(packed.getvalue())
    return f"{root}.tar.gz"


def get_requires_for_build_wheel(config_settings=None):
    """Returns what a build needs: nothing."""
    return []


get_requires_for_build_editable = get_requires_for_build_sdist = get_requires_for_build_wheel
