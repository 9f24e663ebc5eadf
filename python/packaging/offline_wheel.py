"""Builds the wheel for pip, with the standard library only: nothing is fetched, so it works without a network.

The wheel holds the package and a copy of the core's shared object: the file that JUGYVAROS_LIBRARY names, if it is set;
otherwise one linked from the checkout's crates/jugyvaros/out/libjugyvaros.a, which is proved and built first if a
source is newer.
"""

import base64
import hashlib
import pathlib
import re
import sys
import sysconfig
import zipfile

HERE = pathlib.Path(__file__).resolve().parent.parent
sys.path.insert(0, str(HERE))

from jugyvaros import library  # noqa: E402  (it is next to this folder)

PROJECT = dict(re.findall(r'^([\w-]+) = "(.*)"$', (HERE / "pyproject.toml").read_text(), re.MULTILINE))
NAME = f"{PROJECT['name']}-{PROJECT['version']}"
PLATFORM = re.sub(r"\W", "_", sysconfig.get_platform())


def get_requires_for_build_wheel(config_settings=None):
    return []


get_requires_for_build_editable = get_requires_for_build_wheel


def _metadata():
    fields = [("Metadata-Version", "2.1"), ("Name", PROJECT["name"]), ("Version", PROJECT["version"]),
              ("Summary", PROJECT["description"]), ("Requires-Python", PROJECT["requires-python"]),
              ("Description-Content-Type", "text/markdown")]
    return "".join(f"{field}: {value}\n" for field, value in fields) + "\n" + (HERE / "README.md").read_text()


def _write(folder, files, tag):
    """Writes a wheel of these files, with a record of their hashes, and returns its name."""
    about = f"{NAME}.dist-info"
    kind = f"Wheel-Version: 1.0\nGenerator: jugyvaros\nRoot-Is-Purelib: false\nTag: {tag}\n"
    files = {**files, f"{about}/METADATA": _metadata().encode(), f"{about}/WHEEL": kind.encode()}
    record = []
    for name, data in files.items():
        digest = base64.urlsafe_b64encode(hashlib.sha256(data).digest()).rstrip(b"=").decode()
        record.append(f"{name},sha256={digest},{len(data)}\n")
    files[f"{about}/RECORD"] = "".join([*record, f"{about}/RECORD,,\n"]).encode()
    wheel = f"{NAME}-{tag}.whl"
    with zipfile.ZipFile(pathlib.Path(folder) / wheel, "w", zipfile.ZIP_DEFLATED) as archive:
        for name, data in files.items():
            archive.writestr(name, data)
    return wheel


def build_wheel(wheel_directory, config_settings=None, metadata_directory=None):
    sources = [*(HERE / "jugyvaros").glob("*.py"), HERE / "jugyvaros/py.typed"]
    files = {f"jugyvaros/{path.name}": path.read_bytes() for path in sorted(sources)}
    files[f"jugyvaros/{library.BUNDLED.name}"] = library.path().read_bytes()
    return _write(wheel_directory, files, f"py3-none-{PLATFORM}")


def build_editable(wheel_directory, config_settings=None, metadata_directory=None):
    """A wheel that points to this folder: the package then builds the core itself, as in the checkout."""
    return _write(wheel_directory, {"jugyvaros.pth": f"{HERE}\n".encode()}, "py3-none-any")


def build_sdist(sdist_directory, config_settings=None):
    raise NotImplementedError("the core's sources are outside this folder; build a wheel from a checkout")
