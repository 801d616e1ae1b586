#!/usr/bin/env python3
"""The list of what is inside of an archive, as SPDX 2.3: packaging/sbom.py FOLDER VERSION TIME, on standard output.

Each file of FOLDER has its SHA-256. The libraries that are linked into the program are those that crates.txt names and
does not define. TIME is the commit's, in seconds."""
import datetime
import hashlib
import json
import os
import sys


def kit_libraries(crates):
    """The names to the right of a colon that no line defines."""
    lines = [line.partition(":") for line in open(crates, encoding="utf-8") if line.strip() and not line.startswith("#")]
    own = {name.split()[0] for name, _, _ in lines}
    return sorted({used for _, _, rest in lines for used in rest.split()} - own)


def package(name, version, licence, **more):
    return {"SPDXID": f"SPDXRef-Package-{name.replace('_', '-')}", "name": name, "versionInfo": version, "downloadLocation": "NOASSERTION",
            "licenseConcluded": licence, "licenseDeclared": licence, "copyrightText": "NOASSERTION", "filesAnalyzed": False, **more}


def file_entry(number, folder, path):
    with open(os.path.join(folder, path), "rb") as file:
        digest = hashlib.sha256(file.read()).hexdigest()
    return {"SPDXID": f"SPDXRef-File-{number}", "fileName": f"./{path}", "checksums": [{"algorithm": "SHA256", "checksumValue": digest}],
            "licenseConcluded": "Apache-2.0", "copyrightText": "NOASSERTION"}


def main(folder, version, seconds, kit):
    paths = sorted(os.path.relpath(os.path.join(place, name), folder) for place, _, names in os.walk(folder) for name in names)
    files = [file_entry(number, folder, path) for number, path in enumerate((path for path in paths if not os.path.islink(os.path.join(folder, path))), 1)]
    libraries = [package(name, kit, "NOASSERTION") for name in kit_libraries("crates.txt")]
    sums = hashlib.sha256("".join(file["checksums"][0]["checksumValue"] for file in files).encode()).hexdigest()
    document = {
        "spdxVersion": "SPDX-2.3", "dataLicense": "CC0-1.0", "SPDXID": "SPDXRef-DOCUMENT", "name": f"jazvurd-{version}",
        "documentNamespace": f"https://jazvurd.example/spdx/{version}/{sums}",
        "creationInfo": {"created": datetime.datetime.fromtimestamp(int(seconds), datetime.timezone.utc).strftime("%Y-%m-%dT%H:%M:%SZ"),
                         "creators": ["Tool: packaging/sbom.py"]},
        "packages": [package("jazvurd", version, "Apache-2.0"), *libraries],
        "files": files,
        "relationships": [{"spdxElementId": "SPDXRef-DOCUMENT", "relationshipType": "DESCRIBES", "relatedSpdxElement": "SPDXRef-Package-jazvurd"}]
        + [{"spdxElementId": "SPDXRef-Package-jazvurd", "relationshipType": "STATIC_LINK", "relatedSpdxElement": library["SPDXID"]} for library in libraries]
        + [{"spdxElementId": "SPDXRef-Package-jazvurd", "relationshipType": "CONTAINS", "relatedSpdxElement": file["SPDXID"]} for file in files],
    }
    json.dump(document, sys.stdout, indent=1)
    print()


main(*sys.argv[1:])
