"""What the built program links, by the table of NOTICE: its licence texts, and the list in the form of SPDX 2.3."""
import glob
import os
import re
import sys


def crates():
    """Name, version, licence and folder in the kit of each crate of NOTICE's table."""
    with open("NOTICE", encoding="utf-8") as file:
        table = file.read().partition("  in the kit\n")[2].partition("\n\n")[0]
    found = [re.fullmatch(r"  (\S+) +([\d.]+) +(\S+(?: or \S+)?) +(\w+).*", line) for line in table.split("\n")]
    if not found or None in found:
        sys.exit("the table of NOTICE is not understood")
    return [row.groups() for row in found]


def licence_texts(kit):
    """The name that each licence text gets, and where the kit has it."""
    for folder in sorted({folder for _, _, _, folder in crates()}):
        there = sorted(glob.glob(os.path.join(kit, "rattle", folder, "LICENSE*")))
        if not there:
            sys.exit(f"no licence of {folder} in {kit}/rattle")
        for path in there:
            yield f"{folder}.{os.path.basename(path)}", path


def package(name, version, licence, text="NOASSERTION"):
    return {
        "name": name, "SPDXID": "SPDXRef-" + re.sub(r"[^A-Za-z0-9.]", "-", name), "versionInfo": version,
        "downloadLocation": "NOASSERTION", "filesAnalyzed": False,
        "licenseConcluded": licence, "licenseDeclared": licence, "copyrightText": text,
    }


def spdx(version, commit, made, kit_line, libc, gcc):
    """The list. `made` is the time of the commit, `libc` the oldest C library that has all names that are used, and `gcc` the
    compilers whose libgcc is linked."""
    own = package("cozgelt", version, "Apache-2.0", "Copyright 2026 the Cozgelt authors")
    static = [package(name, number, licence.replace(" or ", " OR ")) for name, number, licence, _ in crates()]
    static.append(package("rattle-kit", kit_line, "NOASSERTION"))
    static.append(package("libgcc", gcc, "GPL-3.0-or-later WITH GCC-exception-3.1"))
    system = package("glibc", f"{libc} or newer", "LGPL-2.1-or-later")
    relations = [("SPDXRef-DOCUMENT", "DESCRIBES", own["SPDXID"])]
    relations += [(own["SPDXID"], "STATIC_LINK", each["SPDXID"]) for each in static]
    relations += [(own["SPDXID"], "DYNAMIC_LINK", system["SPDXID"])]
    return {
        "spdxVersion": "SPDX-2.3", "dataLicense": "CC0-1.0", "SPDXID": "SPDXRef-DOCUMENT", "name": f"cozgelt-{version}",
        "documentNamespace": f"https://cozgelt.invalid/spdx/{version}/{commit}",
        "creationInfo": {"created": made, "creators": ["Tool: packaging/make_dist.py"]},
        "packages": [own, *static, system],
        "relationships": [{"spdxElementId": a, "relationshipType": kind, "relatedSpdxElement": b} for a, kind, b in relations],
    }
