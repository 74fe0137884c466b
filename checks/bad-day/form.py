#!/usr/bin/env python3
"""Whether a report.json has the form of docs/FARM.md:  form.py FILE DERIVATIONS"""

import json
import sys

STATUSES = ["waiting", "leased", "built", "failed", "cancelled"]
OPTIONAL = {"machine": str, "slot": int, "begin": int, "end": int, "bytes": int, "log": str, "cause": str}

with open(sys.argv[1], encoding="utf-8") as text:
    report = json.load(text)
assert sorted(report) == ["counts", "derivations", "interrupted", "rounds", "status"], sorted(report)
assert type(report["status"]) is int and type(report["rounds"]) is int
assert report["interrupted"] is None or type(report["interrupted"]) is str
counts, drvs = report["counts"], report["derivations"]
assert sorted(counts) == sorted(STATUSES + ["total"]), sorted(counts)
assert counts["total"] == len(drvs) == int(sys.argv[2]), (counts, len(drvs))
assert sum(counts[name] for name in STATUSES) == counts["total"], counts
for drv in drvs:
    assert sorted(drv) == sorted(["derivation", "status", "round", *OPTIONAL]), sorted(drv)
    assert drv["derivation"].startswith("/nix/store/") and drv["derivation"].endswith(".drv")
    assert drv["status"] in STATUSES + ["nobuilder"], drv["status"]
    for name, kind in OPTIONAL.items():
        assert drv[name] is None or type(drv[name]) is kind, (name, drv[name])
    if drv["status"] == "built" and drv["machine"] is not None:
        assert drv["begin"] <= drv["end"] and drv["bytes"] is not None and drv["cause"] is None, drv
    if drv["status"] in ("failed", "nobuilder", "cancelled"):
        assert drv["cause"], drv
for name in STATUSES:
    count = sum(drv["status"] in ((name, "nobuilder") if name == "failed" else (name,)) for drv in drvs)
    assert count == counts[name], (name, count, counts[name])
