"""Writes the origin of a release in the fields of SLSA's provenance, version 1
(https://slsa.dev/spec/v1.0/provenance)."""
import json
import pathlib
import platform
from collections.abc import Iterable, Mapping
from datetime import datetime, timezone

from components import sha256


def _moment(seconds: float) -> str:
    return datetime.fromtimestamp(seconds, timezone.utc).strftime("%Y-%m-%dT%H:%M:%SZ")


def statement(files: Iterable[pathlib.Path], commit: str, kit: str, tools: Mapping[str, str], began: float,
              ended: float) -> str:
    """Returns the statement over some files.

    commit  of the tree
    kit     its one-line identity
    tools   compiler, linker and C library, each with its version
    began, ended  seconds since 1970
    """
    return json.dumps({
        "_type": "https://in-toto.io/Statement/v1",
        "subject": [{"name": it.name, "digest": {"sha256": sha256(it)}} for it in sorted(files)],
        "predicateType": "https://slsa.dev/provenance/v1",
        "predicate": {
            "buildDefinition": {
                "buildType": "https://gavdilos.example/dnlab/release/v1",
                "externalParameters": {"command": "tools/release"},
                "internalParameters": {"machine": platform.machine(),
                                       "system": f"{platform.system()} {platform.release()}", **tools},
                "resolvedDependencies": [{"name": "sources", "digest": {"gitCommit": commit}}, {"name": kit}],
            },
            "runDetails": {
                "builder": {"id": "https://gavdilos.example/dnlab/tools/release"},
                "metadata": {"startedOn": _moment(began), "finishedOn": _moment(ended)},
            },
        },
    }, indent=1) + "\n"
