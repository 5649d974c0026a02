#!/usr/bin/env python3
"""Mends what a check says of members that went by position: usage: tools/members.py CRATE LOG. It goes by the error lines of `rt check`."""
import re
import sys

crate, log = sys.argv[1], sys.argv[2]
fixes = {}
said = re.sub(r"\n  the fields that can be named here are", " — the fields that can be named here are", open(log, encoding="utf-8", errors="replace").read())
for line in said.split("\n"):
    line = re.sub(r"^so far: ", "", line)
    at = r"(?:\./)?(proofs/\S+?):(\d+):(\d+): error: .*record `[^`]*\.(?:Kept|Last|Typed|Learnt|Step)[^`]*` has no field `(\w+)`"
    m = re.match(at + r"(?:.*?the fields that can be named here are (.*))?", line)
    if m:
        fixes.setdefault(m.group(1), []).append((int(m.group(2)), m.group(4), re.findall(r"`([^`]+)`", m.group(5) or "")))
near = {}
for line in open(log, encoding="utf-8", errors="replace"):
    line = re.sub(r"^so far: ", "", line)
    m = re.match(r"(?:\./)?(proofs/\S+?):(\d+):(\d+): error: .*has no field `([^`]+)` \(nearest: ([^)]*)\)", line)
    if m:
        want = m.group(4).replace("-", "_")
        if f".{want}" in m.group(5).split(", "):
            near.setdefault(m.group(1), set()).add((int(m.group(2)), m.group(4), want))
for path, items in near.items():
    p = f"crates/{crate}/{path}"
    L = open(p, encoding="utf-8").read().split("\n")
    for n, name, want in items:
        L[n - 1] = re.sub(rf"\.{re.escape(name)}(?![\w-])", f".{want}", L[n - 1])
    open(p, "w", encoding="utf-8").write("\n".join(L))
    print(p, "near", len(items))
for path, items in fixes.items():
    p = f"crates/{crate}/{path}"
    L = open(p, encoding="utf-8").read().split("\n")
    for n, name, fields in items:
        t = L[n - 1]
        if name == "0" and not fields:
            fields = ["ws"]
        if name.isdigit() and int(name) < len(fields):
            today = {"kept": "auto", "last": "new"}
            member = lambda k: f".{today.get(k.group(1), k.group(1))}.{fields[int(name)]}"
            t = re.sub(rf"\.(auto|kept|new|last|type_inv)\.{name}(?![\w-])", member, t)
        elif name == "kept":
            t = re.sub(r"\.kept(?![\w-])", ".auto", t)
        elif name == "last":
            t = re.sub(r"\.last(?![\w-])", ".new", t)
        L[n - 1] = t
    open(p, "w", encoding="utf-8").write("\n".join(L))
    print(p, len(items))
