#!/usr/bin/env python3
"""Brings what `./gammonfig verdict --json` writes to the form of GitLab's code quality reports (docs/ci.md)."""
import hashlib
import json
import sys


SEVERITIES = {"error": "critical", "warning": "minor", "note": "info"}


def entry(finding):
    told = "\0".join([finding["rule"], finding["file"], finding["message"]])
    return {
        "description": finding["message"],
        "check_name": finding["rule"],
        "fingerprint": hashlib.sha256(told.encode()).hexdigest(),
        "severity": SEVERITIES[finding["severity"]],
        "location": {"path": finding["file"], "lines": {"begin": finding.get("line", 1)}},
    }


if __name__ == "__main__":
    json.dump([entry(it) for it in json.load(sys.stdin)["findings"]], sys.stdout, indent=2)
    print()
