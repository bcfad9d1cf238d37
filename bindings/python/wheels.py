"""How pip builds this package, with nothing but Python's own library: so it needs no network, and leaves nothing in this folder.

pyproject.toml names it. tools/wheel of the repository makes the wheel that brings the shared object by it too.
"""
import base64
import hashlib
import io
import pathlib
import tarfile
import zipfile
from typing import Any

HERE = pathlib.Path(__file__).resolve().parent
PACKAGES = "livevec", "livevec_dashboard"
BROUGHT = ".py", ".typed", ".html", ".css", ".js"
METADATA = """\
Metadata-Version: 2.1
Name: livevec
Version: {version}
Summary: {summary}
Requires-Python: >=3.9
Classifier: Operating System :: POSIX :: Linux
Classifier: Typing :: Typed
Provides-Extra: mpi
Requires-Dist: mpi4py ; extra == "mpi"
Description-Content-Type: text/markdown

{page}"""
WHEEL = """\
Wheel-Version: 1.0
Generator: livevec
Root-Is-Purelib: {pure}
Tag: {tag}
"""


def said(name: Any, file: Any) -> Any:
    """What a line of a file says of a name, between quotes."""
    return next(line.split('"')[1] for line in (HERE / file).read_text().splitlines() if line.startswith(f"{name} = "))


def version() -> Any:
    return said("__version__", "livevec/__init__.py")


def modules() -> Any:
    """The files of the package by the names that they have in a wheel."""
    packaged = (file for package in PACKAGES for file in sorted((HERE / package).iterdir()) if file.suffix in BROUGHT)
    return {str(file.relative_to(HERE)): file.read_bytes() for file in (HERE / "livevec_mpi.py", *packaged)}


def metadata() -> Any:
    return METADATA.format(version=version(), summary=said("description", "pyproject.toml"), page=(HERE / "README.md").read_text()).encode()


def row(name: Any, content: Any) -> Any:
    digest = base64.urlsafe_b64encode(hashlib.sha256(content).digest()).rstrip(b"=").decode()
    return f"{name},sha256={digest},{len(content)}\n"


def write(folder: Any, tag: Any, files: Any) -> Any:
    """Writes a wheel of some files, and tells its name."""
    about, name = f"livevec-{version()}.dist-info", f"livevec-{version()}-{tag}.whl"
    files = {
        **files,
        f"{about}/METADATA": metadata(),
        f"{about}/WHEEL": WHEEL.format(tag=tag, pure=str(tag.endswith("-any")).lower()).encode(),
        f"{about}/entry_points.txt": b"[console_scripts]\nlivevec-dashboard = livevec_dashboard.__main__:main\n",
    }
    record = "".join(row(name, content) for name, content in files.items())
    files[f"{about}/RECORD"] = f"{record}{about}/RECORD,,\n".encode()
    with zipfile.ZipFile(pathlib.Path(folder) / name, "w", zipfile.ZIP_DEFLATED) as wheel:
        for file, content in files.items():
            # one date for all, so that the same files make the same wheel
            wheel.writestr(zipfile.ZipInfo(file, (2020, 1, 1, 0, 0, 0)), content, zipfile.ZIP_DEFLATED)
    return name


# What pip calls.


def build_wheel(wheel_directory: Any, config_settings: Any = None, metadata_directory: Any = None) -> Any:
    return write(wheel_directory, "py3-none-any", modules())


def build_editable(wheel_directory: Any, config_settings: Any = None, metadata_directory: Any = None) -> Any:
    return write(wheel_directory, "py3-none-any", {"livevec_here.pth": f"{HERE}\n".encode()})


def build_sdist(sdist_directory: Any, config_settings: Any = None) -> Any:
    named = f"livevec-{version()}"
    beside = {name: (HERE / name).read_bytes() for name in ("README.md", "pyproject.toml", "wheels.py")}
    with tarfile.open(pathlib.Path(sdist_directory) / f"{named}.tar.gz", "w:gz") as packed:
        for name, content in {"PKG-INFO": metadata(), **beside, **modules()}.items():
            told = tarfile.TarInfo(f"{named}/{name}")
            told.size = len(content)
            packed.addfile(told, io.BytesIO(content))
    return f"{named}.tar.gz"
