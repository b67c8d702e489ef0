"""Writes the bill of materials of a release, in SPDX 2.3."""
import json
import re
from collections.abc import Sequence
from datetime import datetime, timezone
from typing import Any

from components import UNSTATED, Component

OWN = "MIT OR Apache-2.0"


def _identifier(name: str) -> str:
    return "SPDXRef-" + re.sub(r"[^A-Za-z0-9.-]", "-", name)


def _package(name: str, version: str, licence: str, about: str, checksum: str = "") -> dict[str, Any]:
    found: dict[str, Any] = {
        "name": name, "SPDXID": _identifier(name), "versionInfo": version, "downloadLocation": "NOASSERTION",
        "filesAnalyzed": False, "licenseConcluded": licence, "licenseDeclared": licence,
        "copyrightText": "NOASSERTION", "comment": about}
    if checksum:
        found["checksums"] = [{"algorithm": "SHA256", "checksumValue": checksum}]
    return found


def document(version: str, kit: str, date: int, made: Sequence[Component], parts: Sequence[Component]) -> str:
    """Returns the document.

    date   of the commit, in seconds since 1970
    made   the program and the library, with their checksums
    parts  what is linked into them
    """
    known = {it.name: it for it in parts}
    packages = [_package(it.name, version, it.licence or OWN, it.about, it.checksum) for it in made]
    packages += [_package(it.name,
                          kit if it.about.endswith("kit") or "Rattle kit" in it.about else "NOASSERTION",
                          it.licence or UNSTATED, it.about, it.checksum) for it in known.values()]
    first = packages[0]["SPDXID"]
    relations = [{"spdxElementId": "SPDXRef-DOCUMENT", "relationshipType": "DESCRIBES",
                  "relatedSpdxElement": first}]
    relations += [{"spdxElementId": first, "relationshipType": "STATIC_LINK",
                   "relatedSpdxElement": _identifier(name)}
                  for name in known]
    moment = datetime.fromtimestamp(date, timezone.utc).strftime("%Y-%m-%dT%H:%M:%SZ")
    return json.dumps({
        "spdxVersion": "SPDX-2.3", "dataLicense": "CC0-1.0", "SPDXID": "SPDXRef-DOCUMENT",
        "name": f"dnlab-{version}",
        "documentNamespace": f"https://gavdilos.example/dnlab/spdx/{version}/{made[0].checksum}",
        "creationInfo": {"created": moment,
                         "creators": ["Organization: Gavdilos maintainers", "Tool: tools/release"]},
        "packages": packages, "relationships": relations}, indent=1) + "\n"
