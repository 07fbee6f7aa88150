"""The wheel of the Python package in a release: a zip as pip wants it (PEP 427). Its bytes are those of its members alone: these are
stored as they are, which the archive around it packs, and have no times."""
import base64, hashlib, io, os, platform, re, zipfile

from scripts import top

PYPROJECT = os.path.join(top, "python", "pyproject.toml")
LIBRARY = "vilgoued/libvilgoued.so"
# The oldest C library that the shared library runs with.
GLIBC = "2_34"


def told(pattern: str) -> list[str]:
    """What pyproject.toml says behind this."""
    with open(PYPROJECT, encoding="utf-8") as file:
        return re.findall(pattern, file.read(), re.M)


def tag() -> str:
    return "py3-none-manylinux_%s_%s" % (GLIBC, platform.machine())


def information(version: str) -> dict[str, str]:
    """The files that tell pip of the package, by their names."""
    of = told('^description = "(.*)"$')[0], told('^requires-python = "(.*)"$')[0]
    commands = "".join("%s = %s\n" % it for it in told('^([a-z-]+) = "(vilgoued[.].*)"$'))
    return {
        "METADATA": "Metadata-Version: 2.1\nName: vilgoued\nVersion: %s\nSummary: %s\nRequires-Python: %s\nLicense: MIT\n" % (version, *of),
        "WHEEL": "Wheel-Version: 1.0\nGenerator: vilgoued\nRoot-Is-Purelib: false\nTag: %s\n" % tag(),
        "entry_points.txt": "[console_scripts]\n" + commands,
    }


def record_of(path: str, data: bytes) -> str:
    """The line of RECORD for a member."""
    return "%s,sha256=%s,%d\n" % (path, base64.urlsafe_b64encode(hashlib.sha256(data).digest()).rstrip(b"=").decode(), len(data))


def zipped(members: dict[str, bytes]) -> bytes:
    written = io.BytesIO()
    with zipfile.ZipFile(written, "w", zipfile.ZIP_STORED) as file:
        for path, data in members.items():
            header = zipfile.ZipInfo(path)
            header.create_system, header.external_attr = 3, 0o100644 << 16
            file.writestr(header, data)
    return written.getvalue()


def wheel(version: str, package: dict[str, bytes], library: bytes) -> tuple[str, bytes]:
    """The name and the bytes of the wheel of a package's files, by their paths, with this library."""
    folder = "vilgoued-%s.dist-info" % version
    members = {**package, LIBRARY: library, **{"%s/%s" % (folder, name): text.encode() for name, text in information(version).items()}}
    members = dict(sorted(members.items()))
    record = folder + "/RECORD"
    members[record] = ("".join(record_of(*it) for it in members.items()) + record + ",,\n").encode()
    return "vilgoued-%s-%s.whl" % (version, tag()), zipped(members)
