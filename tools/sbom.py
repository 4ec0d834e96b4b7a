#!/usr/bin/env python3
"""Prints of what a release is made, in SPDX 2.3: sbom.py VERSION COMMIT SECONDS. The last are those of the commit.

The parts are the crates whose text rustc compiled, what it took in of Rust's own, and what compiled them.
"""
import datetime
import glob
import json
import os
import re
import sys

NONE = "NOASSERTION"
# Of each product in CPE the licence, who supplies it here, and the copyright.
MAKERS = {
    "vedqunor:pkcs1-proved": ("Apache-2.0 OR MIT", "Organization: Vedqunor maintainers",
                              "Copyright 2026 Vedqunor maintainers"),
    "rust-lang:rust": ("MIT OR Apache-2.0", "Organization: Debian", "Copyright The Rust Project contributors"),
    "llvm:llvm": ("Apache-2.0 WITH LLVM-exception", "Organization: Debian", NONE),
}
FOLDERS = ("rust/src/proved", "rust/c/src/calls", "rust/src/bin/pkcs1_tool/tool")


def provenance():
    """What PROVENANCE says: the words behind each name in front of a colon. rustc's end with Debian's package."""
    with open("ffi/lib/generated/PROVENANCE", encoding="utf-8") as it:
        return dict(re.findall(r"^(rustc|driver|LLVM): (.*)$", it.read(), re.M))


def package(name, version, product, comment, purl, **more):
    """A part, as SPDX has it. The product is the vendor's and its own name in CPE."""
    licence, supplier, holder = MAKERS[product]
    number = version.split()[0]
    named = ("PACKAGE-MANAGER", "purl", purl), ("SECURITY", "cpe23Type", f"cpe:2.3:a:{product}:{number}:*:*:*:*:*:*:*")
    return {"SPDXID": f"SPDXRef-{name.replace('_', '-')}", "name": name, "versionInfo": version, "supplier": supplier,
            "downloadLocation": NONE, "filesAnalyzed": False, "licenseConcluded": licence, "licenseDeclared": licence,
            "copyrightText": holder, "comment": comment, **more,
            "externalRefs": [{"referenceCategory": category, "referenceType": kind, "referenceLocator": name}
                             for category, kind, name in named]}


def ours(name, version, comment, folder=""):
    return package(name, version, "vedqunor:pkcs1-proved", comment, f"pkg:generic/pkcs1-proved@{version}{folder}")


def crates(version):
    """The crates that are built in, and the crate for Rust, which is of the same text."""
    for name in sorted(os.path.basename(it[:-1]) for folder in FOLDERS for it in glob.glob(f"{folder}/*/")):
        yield ours(name, version, "functions of the crate, without its contracts", f"#crates/{name}")
    yield ours("pkcs1-proved-crate", version, "for Rust: functions of the crates, without their contracts", "#rust")


def of_rust(said):
    """What rustc took in of Rust's own libraries, and what compiled all."""
    version = said["rustc"].split()[0]
    debian = re.search(r"Debian's (\S+) (\S+)$", said["rustc"])
    if not debian:
        sys.exit("tools/sbom.py: ffi/lib/generated isn't made by Debian's rustc: tools/generate.sh without RUSTC_1_85")
    purl = f"pkg:deb/debian/{debian[1]}@{debian[2].replace('+', '%2B')}?arch=source"
    hashed = [{"algorithm": "SHA256", "checksumValue": said["driver"].split()[1]}]
    yield package("core", version, "rust-lang:rust", "in the library and in the tool, what they use of it",
                  f"{purl}#library/core")
    yield package("alloc", version, "rust-lang:rust", "in the tool, what it uses of it", f"{purl}#library/alloc")
    yield package("rustc", said["rustc"], "rust-lang:rust", "compiled all but pkcs1.c and os.c", purl, checksums=hashed)
    yield package("LLVM", said["LLVM"], "llvm:llvm", "a part of that rustc", f"pkg:generic/llvm@{said['LLVM']}")


def main():
    version, commit, seconds = sys.argv[1:]
    os.chdir(f"{os.path.dirname(os.path.realpath(__file__))}/..")
    said = provenance()
    whole = ours("pkcs1-proved", version, f"commit {commit}")
    *parts, rustc, llvm = *crates(version), *of_rust(said)
    compilers = [rustc, llvm]
    related = [("SPDXRef-DOCUMENT", "DESCRIBES", whole["SPDXID"])]
    related += [(whole["SPDXID"], "CONTAINS", it["SPDXID"]) for it in parts]
    related += [(it["SPDXID"], "BUILD_TOOL_OF", whole["SPDXID"]) for it in compilers]
    created = datetime.datetime.fromtimestamp(int(seconds), datetime.timezone.utc)
    print(json.dumps({
        "spdxVersion": "SPDX-2.3", "dataLicense": "CC0-1.0", "SPDXID": "SPDXRef-DOCUMENT",
        "name": f"pkcs1-proved-{version}",
        "documentNamespace": f"https://spdx.org/spdxdocs/pkcs1-proved-{version}-{commit}",
        "creationInfo": {"created": created.strftime("%Y-%m-%dT%H:%M:%SZ"), "creators": ["Organization: Vedqunor maintainers", "Tool: pkcs1-proved-sbom"]},
        "packages": [whole, *parts, *compilers],
        "relationships": [{"spdxElementId": left, "relationshipType": how, "relatedSpdxElement": right}
                          for left, how, right in related],
    }, indent=1))


main()
