"""The wheel of the Python module: an archive that pip installs, with the shared library in it."""

import base64
import hashlib
import io
import re
import zipfile

# files of a zip have no time before this one
TIME = (1980, 1, 1, 0, 0, 0)

METADATA = """Metadata-Version: 2.1
Name: topo
Version: {version}
Summary: A surface tracker on an integer grid, proved
Requires-Python: >=3.9
Provides-Extra: numpy
Requires-Dist: numpy; extra == "numpy"

The surface tracker `topo` from Python: `import topo; help(topo)` says how it is called. Numpy is used where it is there, and is not needed.
No licence of the program is given, which is for its owner to decide; the file NOTICES.md has the notices of the libraries in it.
"""
WHEEL = "Wheel-Version: 1.0\nGenerator: topo\nRoot-Is-Purelib: false\nTag: {tag}\n"


def c_library_needed(*contents):
    """The newest version of the GNU C library that one of these programs or libraries asks for, as two numbers."""
    return max((int(major), int(minor)) for content in contents for major, minor in re.findall(rb"\0GLIBC_(\d+)\.(\d+)", content))


def tag_of(library):
    """The tag of a wheel with this shared library. Nothing that asks for less than 2.17 has a tag that every pip knows."""
    major, minor = max(c_library_needed(library), (2, 17))
    return f"py3-none-manylinux_{major}_{minor}_x86_64"


def record_row(name, content):
    digest = base64.urlsafe_b64encode(hashlib.sha256(content).digest()).rstrip(b"=").decode()
    return f"{name},sha256={digest},{len(content)}\n"


def wheel(version, modules, library, notices):
    """The wheel's name, and its bytes."""
    tag, info = tag_of(library), f"topo-{version}.dist-info"
    files = {
        **{f"topo/{name}": content for name, content in modules.items()},
        "topo/libtopo.so": library,
        f"{info}/METADATA": METADATA.format(version=version).encode(),
        f"{info}/WHEEL": WHEEL.format(tag=tag).encode(),
        f"{info}/licenses/NOTICES.md": notices,
    }
    record = "".join(record_row(name, files[name]) for name in sorted(files)) + f"{info}/RECORD,,\n"
    made = io.BytesIO()
    with zipfile.ZipFile(made, "w") as it:
        for name, content in [*sorted(files.items()), (f"{info}/RECORD", record.encode())]:
            row = zipfile.ZipInfo(name, TIME)
            row.create_system, row.external_attr = 3, (0o100755 if name.endswith(".so") else 0o100644) << 16
            it.writestr(row, content, zipfile.ZIP_DEFLATED)
    return f"topo-{version}-{tag}.whl", made.getvalue()
