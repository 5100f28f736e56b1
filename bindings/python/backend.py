"""Makes the wheel, of the package and the library of the release; so pip needs nothing else, and no network."""
import base64
import hashlib
import zipfile
from pathlib import Path

HERE = Path(__file__).resolve().parent
RELEASE = HERE.parents[1] / "release"
TAG = "py3-none-manylinux_2_14_x86_64"


def version():
    """The version of the release, whose library goes into the wheel."""
    about = (RELEASE / "palvumiose-x86_64-linux.about").read_text()
    return next(line.split()[1] for line in about.splitlines() if line.startswith("version "))


def wheel_files():
    """The names of the wheel's files, with their bytes."""
    info = f"palvumiose-{version()}.dist-info"
    metadata = (
        f"Metadata-Version: 2.1\nName: palvumiose\nVersion: {version()}\n"
        "Summary: Decisions by Cedar policies, in the process\nLicense: Apache-2.0\nRequires-Python: >=3.9\n"
        "Description-Content-Type: text/markdown\n\n" + (HERE / "README.md").read_text()
    )
    files = {f"palvumiose/{path.name}": path.read_bytes() for path in sorted((HERE / "palvumiose").glob("*.py*")) if path.is_file()}
    files["palvumiose/libpalvumiose_c.so"] = (RELEASE / "libpalvumiose_c.so").read_bytes()
    files[f"{info}/licenses/LICENSE"] = (HERE.parents[1] / "LICENSE").read_bytes()
    files[f"{info}/licenses/NOTICES"] = (RELEASE / "NOTICES").read_bytes()
    files[f"{info}/METADATA"] = metadata.encode()
    files[f"{info}/WHEEL"] = f"Wheel-Version: 1.0\nGenerator: palvumiose\nRoot-Is-Purelib: false\nTag: {TAG}\n".encode()
    return info, files


def record_line(name, data):
    digest = base64.urlsafe_b64encode(hashlib.sha256(data).digest()).rstrip(b"=").decode()
    return f"{name},sha256={digest},{len(data)}\n"


def build_wheel(wheel_directory, config_settings=None, metadata_directory=None):
    """Writes the wheel, and answers its name, as pip asks for it."""
    info, files = wheel_files()
    record = f"{info}/RECORD"
    files[record] = ("".join(record_line(name, data) for name, data in files.items()) + f"{record},,\n").encode()
    name = f"palvumiose-{version()}-{TAG}.whl"
    with zipfile.ZipFile(Path(wheel_directory) / name, "w", zipfile.ZIP_DEFLATED) as wheel:
        for path, data in files.items():
            wheel.writestr(zipfile.ZipInfo(path), data)
    return name
