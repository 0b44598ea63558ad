"""Wheels and sdists that tests make: tiny, and the same bytes each time."""

import base64
import gzip
import hashlib
import io
import tarfile
import zipfile

TIME = (2020, 1, 1, 0, 0, 0)


def headers(name, version, requires=(), python=None, metadata="2.1", **others):
    """A METADATA or PKG-INFO. Other headers are given by their names in lower case, as `dynamic`."""
    lines = [f"Metadata-Version: {metadata}", f"Name: {name}", f"Version: {version}"]
    lines += [f"Requires-Python: {python}"] if python else []
    lines += [f"Requires-Dist: {text}" for text in requires]
    lines += [f"{key.title().replace('_', '-')}: {value}" for key, value in others.items()]
    return "\n".join(lines) + "\n"


def zipped(members):
    data = io.BytesIO()
    with zipfile.ZipFile(data, "w", zipfile.ZIP_DEFLATED) as archive:
        for name, text in members.items():
            archive.writestr(zipfile.ZipInfo(name, TIME), text, zipfile.ZIP_DEFLATED)
    return data.getvalue()


def tarred(members):
    data = io.BytesIO()
    with gzip.GzipFile(fileobj=data, mode="wb", mtime=0) as stream, tarfile.open(fileobj=stream, mode="w") as archive:
        for name, text in members.items():
            member = tarfile.TarInfo(name)
            member.size = len(text)
            archive.addfile(member, io.BytesIO(text.encode()))
    return data.getvalue()


def record_line(name, content):
    data = content.encode() if isinstance(content, str) else content
    digest = base64.urlsafe_b64encode(hashlib.sha256(data).digest()).rstrip(b"=").decode()
    return f"{name},sha256={digest},{len(data)}\n"


def wheel(folder, name, version, *requires, tag="py3-none-any", **others):
    """Writes a wheel that pip can install, with one module that tells its version. The path is given."""
    inner = f"{name.replace('-', '_')}-{version}"
    members = {
        f"{name.replace('-', '_')}.py": f"version = {version!r}\n",
        f"{inner}.dist-info/METADATA": headers(name, version, requires, **others),
        f"{inner}.dist-info/WHEEL": f"Wheel-Version: 1.0\nRoot-Is-Purelib: true\nTag: {tag}\n",
    }
    record = f"{inner}.dist-info/RECORD"
    members[record] = "".join(record_line(*member) for member in members.items()) + f"{record},,\n"
    folder.mkdir(parents=True, exist_ok=True)
    path = folder / f"{inner}-{tag}.whl"
    path.write_bytes(zipped(members))
    return path


def sdist(folder, name, version, *requires, end=".tar.gz", metadata="2.2", **others):
    """Writes an sdist of a PKG-INFO and a module. The path is given."""
    inner = f"{name}-{version}"
    text = headers(name, version, requires, metadata=metadata, **others)
    members = {f"{inner}/{name}.py": "print()\n", f"{inner}/PKG-INFO": text, f"{inner}/{name}.egg-info/PKG-INFO": "Name: z\n"}
    folder.mkdir(parents=True, exist_ok=True)
    path = folder / f"{inner}{end}"
    path.write_bytes(tarred(members) if end == ".tar.gz" else zipped(members))
    return path
