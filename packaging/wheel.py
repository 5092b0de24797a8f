"""A wheel for Python of files that are there already (PEP 427): `cozgelt` as a package, with the shared library inside."""
import ast
import base64
import hashlib
import io
import zipfile

NAME = "cozgelt"
SHARED = "libcozgelt.so"
METADATA = """\
Metadata-Version: 2.1
Name: {name}
Version: {version}
Summary: Amazon Ion 1.0, text or binary: as canonical text, as pretty text, as binary, or checked
License: Apache-2.0
Requires-Python: >=3.8
Classifier: Operating System :: POSIX :: Linux
Classifier: Programming Language :: Python :: 3
Classifier: Typing :: Typed
Description-Content-Type: text/plain

{about}
"""


def number_of(version):
    """A version as Python has it: what is made before the tag is a .dev release, with the commit after a plus."""
    number, _, rest = version.partition("~")
    date, _, commit = rest.partition(".")
    return f"{number}.dev{date}+g{commit}" if rest else number


def platforms_of(libc):
    """The systems whose C library is not older than this. The names of 2.17 are those that an older pip knows."""
    major, minor = map(int, libc.split("."))
    old = (major, minor) <= (2, 17)
    return ["manylinux_2_17_x86_64", "manylinux2014_x86_64"] if old else [f"manylinux_{major}_{minor}_x86_64"]


def row_of(name, data):
    """A line of RECORD."""
    sum = base64.urlsafe_b64encode(hashlib.sha256(data).digest()).rstrip(b"=").decode()
    return f"{name},sha256={sum},{len(data)}\n"


def packed(files, when):
    """The archive, with files in this order and of one time."""
    made = io.BytesIO()
    with zipfile.ZipFile(made, "w", zipfile.ZIP_DEFLATED, compresslevel=9) as archive:
        for name, data in files.items():
            entry = zipfile.ZipInfo(name, max(when, (1980, 1, 1, 0, 0, 0)))
            entry.create_system, entry.compress_type = 3, zipfile.ZIP_DEFLATED
            entry.external_attr = (0o100755 if name.endswith(".so") else 0o100644) << 16
            archive.writestr(entry, data)
    return made.getvalue()


def wheel_of(version, libc, module, shared, more, when):
    """Name and bytes of the wheel. `more` has what else stands in the folder of the metadata: licences, and what is linked."""
    number, platforms = number_of(version), platforms_of(libc)
    about = ast.get_docstring(ast.parse(module))
    inside = f"{NAME}-{number}.dist-info"
    tags = "".join(f"Tag: py3-none-{each}\n" for each in platforms)
    files = {f"{NAME}/__init__.py": module, f"{NAME}/py.typed": b"", f"{NAME}/{SHARED}": shared}
    files[f"{inside}/METADATA"] = METADATA.format(name=NAME, version=number, about=about).encode()
    files[f"{inside}/WHEEL"] = f"Wheel-Version: 1.0\nGenerator: {NAME}\nRoot-Is-Purelib: false\n{tags}".encode()
    files.update((f"{inside}/{name}", data) for name, data in sorted(more.items()))
    record = "".join(row_of(name, data) for name, data in files.items()) + f"{inside}/RECORD,,\n"
    files[f"{inside}/RECORD"] = record.encode()
    return f"{NAME}-{number}-py3-none-{'.'.join(platforms)}.whl", packed(files, when)
