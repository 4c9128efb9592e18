#!/usr/bin/env python3
"""Makes the packages of a release: `packages.py [--url URL] [RELEASE [FOLDER]]`, out of out/release into out/packages by themselves.

    pathserve-VERSION-py3-none-PLATFORM.whl      for Python on Linux and on Windows, with the library in it
    pathserve-VERSION-linux-x86_64.tar.gz        the release without what is for other platforms
    pathserve-VERSION-windows-x86_64.zip         the same for Windows
    pathserve-VERSION.tgz                        for JavaScript: `npm install` takes the file
    vcpkg/pathserve                              a port, which takes the two archives from URL, or from this folder
    SHA256SUMS                                   their checksums

A package is left out where the release has not its platform. The same release gives the same bytes. The status is 0 where
packages were made, and else 1.
"""
import base64
import gzip
import hashlib
import io
import os
import pathlib
import re
import stat
import tarfile
import zipfile

import commands

TOP = os.path.dirname(os.path.dirname(os.path.abspath(__file__)))
PORT = os.path.join(TOP, "tools", "vcpkg")
LINUX, WINDOWS = "lib/libpathserve.so.0", "windows/bin/pathserve.dll"
PLATFORMS = {"lib", "windows", "web", "macos"}
ABOUT = """\
Metadata-Version: 2.1
Name: pathserve
Version: {version}
Summary: Long-range paths for many players, by turns, the same on every machine
Requires-Python: >=3.8
License: all rights are reserved until a licence is chosen
"""
WHEEL = "Wheel-Version: 1.0\nGenerator: pathserve\nRoot-Is-Purelib: false\nTag: {tag}\n"


def data_of(*name):
    with open(os.path.join(*name), "rb") as it:
        return it.read()


def linux_platform(library):
    """The oldest Linux on which a shared object is loaded, as a wheel names it: by the C library that it needs."""
    needed = [int(it) for it in re.findall(rb"GLIBC_2\.(\d+)", library)]
    return f"manylinux_2_{max(17, *needed)}_x86_64"


def wheel(release, version, library, platform):
    """The name and the bytes of a wheel."""
    tag, info = f"py3-none-{platform}", f"pathserve-{version}.dist-info"
    folder, files = os.path.join(release, "examples", "python", "pathserve"), {}
    for name in sorted(os.listdir(folder)):
        if name.endswith((".py", ".typed")):
            files[f"pathserve/{name}"] = data_of(folder, name)
    files[f"pathserve/{os.path.basename(library)}"] = data_of(release, library)
    files[f"{info}/METADATA"] = ABOUT.format(version=version).encode()
    files[f"{info}/WHEEL"] = WHEEL.format(tag=tag).encode()
    lines = [f"{name},{sum_in_base64(data)},{len(data)}\n" for name, data in files.items()]
    files[f"{info}/RECORD"] = "".join([*lines, f"{info}/RECORD,,\n"]).encode()
    return f"pathserve-{version}-{tag}.whl", zipped({name: (data, 0o644) for name, data in files.items()})


def sum_in_base64(data):
    return "sha256=" + base64.urlsafe_b64encode(hashlib.sha256(data).digest()).rstrip(b"=").decode()


def zipped(files):
    made = io.BytesIO()
    with zipfile.ZipFile(made, "w", zipfile.ZIP_DEFLATED, compresslevel=9) as it:
        for name, (data, mode) in files.items():
            entry = zipfile.ZipInfo(name)
            entry.external_attr, entry.compress_type, entry.create_system = (stat.S_IFREG | mode) << 16, zipfile.ZIP_DEFLATED, 3
            it.writestr(entry, data)
    return made.getvalue()


def tarred(files, links=()):
    made = io.BytesIO()
    with tarfile.open(fileobj=made, mode="w", format=tarfile.USTAR_FORMAT) as it:
        for name, (data, mode) in files.items():
            entry = tarfile.TarInfo(name)
            entry.size, entry.mode = len(data), mode
            it.addfile(entry, io.BytesIO(data))
        for name, to in links:
            entry = tarfile.TarInfo(name)
            entry.type, entry.linkname = tarfile.SYMTYPE, to
            it.addfile(entry)
    return gzip.compress(made.getvalue(), 9, mtime=0)


def files_of(release, root, platform):
    """The files of a release but for those of other platforms, below `root`, with their sums anew; and its links."""
    files, links, sums = {}, [], []
    for folder, names, inside in os.walk(release):
        names[:] = sorted(it for it in names if folder != release or it not in PLATFORMS - {platform})
        for name in sorted(inside):
            path = os.path.join(folder, name)
            short = os.path.relpath(path, release).replace(os.sep, "/")
            if os.path.islink(path):
                links.append((f"{root}/{short}", os.readlink(path)))
            elif short not in ("build.log", "SHA256SUMS"):
                data = data_of(path)
                files[f"{root}/{short}"] = data, 0o755 if os.access(path, os.X_OK) else 0o644
                sums.append(f"{hashlib.sha256(data).hexdigest()}  {short}\n")
    files[f"{root}/SHA256SUMS"] = "".join(sums).encode(), 0o644
    return files, links


def port(version, url, archives):
    """The files of a port for vcpkg, of which the archives by their platforms lie at a URL."""
    sums = {it: hashlib.sha512(data).hexdigest() for it, data in archives.items()}
    holes = {"VERSION": version, "URL": url, "PLATFORMS": " | ".join(archives), "LINUX": sums.get("linux", ""), "WINDOWS": sums.get("windows", "")}
    for name in sorted(os.listdir(PORT)):
        data = data_of(PORT, name)
        if name.endswith(".in"):
            data = re.sub("|".join(f"@{it}@" for it in holes), lambda it: holes[it[0].strip("@")], data.decode()).encode()
        yield f"vcpkg/pathserve/{name.removesuffix('.in')}", data


def packages(release, version, url):
    """Each package that the release has the files of; from the URL a port takes its archives."""
    has, archives = lambda name: os.path.isfile(os.path.join(release, name)), {}
    if has(LINUX):
        yield wheel(release, version, LINUX, linux_platform(data_of(release, LINUX)))
        root = f"pathserve-{version}-linux-x86_64"
        archives["linux"] = tarred(*files_of(release, root, "lib"))
        yield f"{root}.tar.gz", archives["linux"]
    if has(WINDOWS):
        yield wheel(release, version, WINDOWS, "win_amd64")
        root = f"pathserve-{version}-windows-x86_64"
        archives["windows"] = zipped(files_of(release, root, "windows")[0])
        yield f"{root}.zip", archives["windows"]
    if archives:
        yield from port(version, url, archives)
    if has("web/pathserve/pathserve.wasm"):
        folder = os.path.join(release, "web", "pathserve")
        its = {f"package/{name}": (data_of(folder, name), 0o644) for name in sorted(os.listdir(folder))}
        yield f"pathserve-{version}.tgz", tarred(its)


def words():
    parser = commands.parser_of(__doc__)
    parser.add_argument("release", nargs="?", default=os.path.join(TOP, "out", "release"), help="a folder that ./release made (out/release)")
    parser.add_argument("folder", nargs="?", default=os.path.join(TOP, "out", "packages"), help="where the packages come (out/packages)")
    parser.add_argument("--url", help="where the port finds the archives (that folder)")
    return parser.parse_args()


def main():
    said = words()
    release, out = said.release, said.folder
    if not os.path.isfile(os.path.join(release, "PROVENANCE")):
        commands.say(f"{release} is no release: ./release makes one")
        return 1
    version = re.match(r"libpathserve ([\w.]+)", data_of(release, "PROVENANCE").decode())[1]
    os.makedirs(out, exist_ok=True)
    sums = []
    for name, data in packages(release, version, said.url or pathlib.Path(out).resolve().as_uri()):
        place = os.path.join(out, name)
        os.makedirs(os.path.dirname(place), exist_ok=True)
        with open(place, "wb") as it:
            it.write(data)
        sums.append(f"{hashlib.sha256(data).hexdigest()}  {name}\n")
        print(f"{len(data):9} {name}")
    with open(os.path.join(out, "SHA256SUMS"), "w", encoding="utf-8") as it:
        it.write("".join(sorted(sums)))
    return int(not sums)


if __name__ == "__main__":
    commands.run(main)
