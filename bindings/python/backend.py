"""Makes a wheel for pip (PEP 517) of the package here, with libcvec.so in it: that of the folder that CVEC_LIB names, and else
of the repository, where `make libraries` makes it."""
import base64
import hashlib
import os
import sysconfig
import zipfile

NAME, VERSION = "cvec", "1.0"
HERE = os.path.dirname(os.path.abspath(__file__))
PACKAGE = os.path.join(HERE, NAME)
FIRST_DATE = (1980, 1, 1, 0, 0, 0)


def _library():
    named = os.environ.get("CVEC_LIB")
    path = os.path.join(named or os.path.join(HERE, "..", "..", "out", "lib"), "libcvec.so")
    if os.path.exists(path):
        return path
    if named:
        raise SystemExit(f"CVEC_LIB names {named}, which has no libcvec.so")
    raise SystemExit("there is no libcvec.so: `make libraries` in the repository makes it, and CVEC_LIB names a folder that has it")


def _contents(tag):
    """The files of the wheel by their names, but for the list of them."""
    about = f"{NAME}-{VERSION}.dist-info"
    modules = sorted(it for it in os.listdir(PACKAGE) if it.endswith(".py") or it == "py.typed")
    paths = [*(os.path.join(PACKAGE, it) for it in modules), _library()]
    files = {}
    for path in paths:
        with open(path, "rb") as file:
            files[f"{NAME}/{os.path.basename(path)}"] = file.read()
    files[f"{about}/METADATA"] = (f"Metadata-Version: 2.1\nName: {NAME}\nVersion: {VERSION}\nRequires-Python: >=3.8\n"
                                  "Summary: A durable vector in a file, over the proved library for C\n").encode()
    files[f"{about}/WHEEL"] = f"Wheel-Version: 1.0\nGenerator: {NAME}\nRoot-Is-Purelib: false\nTag: {tag}\n".encode()
    return f"{about}/RECORD", files


def _line(name, data):
    digest = base64.urlsafe_b64encode(hashlib.sha256(data).digest()).rstrip(b"=").decode()
    return f"{name},sha256={digest},{len(data)}\n"


def build_wheel(wheel_directory, config_settings=None, metadata_directory=None):
    tag = "py3-none-" + sysconfig.get_platform().replace("-", "_").replace(".", "_")
    record, files = _contents(tag)
    files[record] = ("".join(_line(*it) for it in files.items()) + f"{record},,\n").encode()
    name = f"{NAME}-{VERSION}-{tag}.whl"
    with zipfile.ZipFile(os.path.join(wheel_directory, name), "w", zipfile.ZIP_DEFLATED) as wheel:
        for path, data in files.items():
            entry = zipfile.ZipInfo(path, FIRST_DATE)
            entry.external_attr = 0o644 << 16
            entry.compress_type = zipfile.ZIP_DEFLATED
            wheel.writestr(entry, data)
    return name
