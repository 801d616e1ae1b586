#!/usr/bin/env python3
"""The Python module as a wheel with the program inside: packaging/wheel.py PROGRAM VERSION TIME FOLDER prints its name.

The standard library makes it, with the same bytes from the same files. The name says any Linux of x86-64 where the program
needs no library, and this system's kind else."""
import base64
import hashlib
import os
import subprocess
import sys
import time
import zipfile


def needs_libraries(program):
    done = subprocess.run(["ldd", program], capture_output=True, check=False)
    return done.returncode == 0


def main(program, version, seconds, folder):
    platform = "linux_x86_64" if needs_libraries(program) else "manylinux_2_17_x86_64.manylinux2014_x86_64.musllinux_1_1_x86_64"
    info, tag = f"jazvurd-{version}.dist-info", f"py3-none-{platform}"
    entries = {f"jazvurd/{name}": (f"scripts/jazvurd/{name}", 0o644) for name in ("__init__.py", "py.typed")}
    entries["jazvurd/fst"] = (program, 0o755)
    entries[f"{info}/LICENSE"] = ("LICENSE", 0o644)
    contents = {}
    for name, (path, mode) in entries.items():
        with open(path, "rb") as file:
            contents[name] = (file.read(), mode)
    about = (f"Metadata-Version: 2.1\nName: jazvurd\nVersion: {version}\nSummary: exact weighted finite-state transducers: the commands of fst from Python\n"
             "License: Apache-2.0\nLicense-File: LICENSE\nRequires-Python: >=3.9\nDescription-Content-Type: text/plain\n\n"
             "The commands of fst as functions, with the program inside. pydoc jazvurd says how.\n")
    contents[f"{info}/METADATA"] = (about.encode(), 0o644)
    tags = "".join(f"Tag: py3-none-{one}\n" for one in platform.split("."))
    contents[f"{info}/WHEEL"] = (f"Wheel-Version: 1.0\nGenerator: packaging/wheel.py\nRoot-Is-Purelib: false\n{tags}".encode(), 0o644)
    contents[f"{info}/entry_points.txt"] = (b"[console_scripts]\nfst = jazvurd:_program_instead\n", 0o644)
    record = []
    for name, (data, _) in contents.items():
        digest = base64.urlsafe_b64encode(hashlib.sha256(data).digest()).rstrip(b"=").decode()
        record.append(f"{name},sha256={digest},{len(data)}\n")
    contents[f"{info}/RECORD"] = ("".join(record + [f"{info}/RECORD,,\n"]).encode(), 0o644)
    # A zip has no time before 1980.
    stamp = max(time.gmtime(int(seconds))[:6], (1980, 1, 1, 0, 0, 0))
    target = os.path.join(folder, f"jazvurd-{version}-{tag}.whl")
    with zipfile.ZipFile(target, "w", zipfile.ZIP_DEFLATED) as wheel:
        for name, (data, mode) in contents.items():
            entry = zipfile.ZipInfo(name, stamp)
            entry.external_attr, entry.compress_type = (0o100000 | mode) << 16, zipfile.ZIP_DEFLATED
            wheel.writestr(entry, data)
    print(target)


main(*sys.argv[1:])
