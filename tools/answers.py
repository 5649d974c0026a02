#!/usr/bin/env python3
"""Turns a crate's function proofs of the older form (proofs/F/Proof.antt over a Tie) to Invariants.antt and Answers.antt.

usage: tools/answers.py CRATE NAMES.json [FUNCTION..]

NAMES.json is what `rt check --generated DIR --old-names` lists for the crate. It ran once (docs/PORT.md). What it cannot turn it says on a line `left:`.
An answer that only says `search rules` is dropped: the check tries that by itself.
"""
import json
import os
import re
import subprocess
import sys

ROOT = os.path.dirname(os.path.dirname(os.path.realpath(__file__)))
BASE = os.environ.get("ANSWERS_BASE", "546c0989bc692d5133bdf21064846f73a88bcd0e")
WORD = r"[^\s(){}.;,\"«»:\[\]|]+"


def norm(name):
    return name.replace("_", "-")


def blocks(text):
    """The declarations of a file: lists of lines, each from a line that begins at the margin with no blank before a continuation."""
    out, cur = [], []
    for line in text.split("\n"):
        if not line.strip():
            if cur:
                out.append(cur)
                cur = []
        else:
            cur.append(line)
    if cur:
        out.append(cur)
    return out


def module_of(crate, fn):
    return f"Rattle.{crate}.proofs." + fn.replace("/", ".")


class Left(Exception):
    pass


def convert(crate, fn, entry, say):
    folder = f"{ROOT}/crates/{crate}/proofs/{fn}"
    path = f"{folder}/Proof.antt"
    text = open(path, encoding="utf-8").read()
    parts = blocks(text)
    uses, head, decls = [], [], []
    for b in parts:
        rest = []
        for line in b:
            if line.startswith("use "):
                uses.append(line)
            else:
                rest.append(line)
        if rest:
            if all(l.startswith("--") for l in rest) and not decls and not head:
                head = rest
            else:
                comment = []
                while rest and rest[0].startswith("--") and not decls and not head:
                    comment.append(rest.pop(0))
                if comment:
                    head = comment
                if rest:
                    decls.append(rest)
    uses = [u for u in uses if not re.search(r"\.(Statement|Tie|Lts)\b", u)]
    # old needs
    needs = entry["needs"]
    goal_of = {norm(a): b for a, b in needs}
    place_of_goal = {}
    for (old, new), at in zip(needs, entry["asked_at"]):
        place_of_goal[new] = at
    new_place = dict(zip([p[0] for p in entry["places"]], entry["places_by_name"]))
    new_place_n = {norm(a): b for a, b in new_place.items()}
    fields = {}
    for p in entry["places"]:
        if p[2][0]:
            fields.setdefault(norm(p[2][0]), p[2][1])
    loops = {norm(l[0][0]): (l[0][1], l[1]) for l in entry["loops"]}
    changed = {norm(l[0][0]): c for l, c in zip(entry["loops"], entry["changed"])}
    # original labels, from before port.py respelled them
    rel = f"crates/{crate}/proofs/{fn}/Proof.antt"
    orig = subprocess.run(["git", "show", f"{BASE}:{rel}"], cwd=ROOT, capture_output=True, text=True).stdout
    orig_label = {}
    for m in re.finditer(r"^(?:abbrev )?(" + WORD + r")\s*:\s*tie\s*\.\s*Need-(" + WORD + r")", orig, re.M):
        a, b = m.groups()
        orig_label[norm(a)] = norm(b)
    # the list of tie.spec
    whole = re.sub(r"\s+", " ", text)
    m = re.search(r"tie\.spec ([^)]*)\)", whole)
    listed = m.group(1).split() if m else []
    order = [x for x in listed if not x.startswith(("invariant", "decreases")) and norm(x) in orig_label or x in listed and norm(x) in orig_label]
    by_place = {}
    if len(order) == len(needs):
        by_place = {norm(x): n[1] for x, n in zip(order, needs)}

    def goal_for(local):
        label = orig_label.get(norm(local))
        if label in goal_of:
            return goal_of[label]
        return by_place.get(norm(local))

    # helpers over states
    states = {}  # identity helpers
    helpers = {}  # name -> place (old)
    for d in decls:
        sig = " ".join(l.strip() for l in d if not l.startswith("--"))
        m = re.match(r"(?:abbrev )?(" + WORD + r") : tie\.(" + WORD + r")(?: [^→]*)? → tie\.(" + WORD + r")", sig)
        if m:
            states[m.group(1)] = m.group(3)
            continue
        m = re.match(r"(?:abbrev |unfoldable )?(" + WORD + r") : \((" + WORD + r") : tie\.(" + WORD + r")", sig)
        if m and not m.group(3).startswith("Need"):
            helpers[m.group(1)] = m.group(3)
            continue
        m = re.match(r"(?:abbrev |unfoldable )?(" + WORD + r") : tie\.(" + WORD + r")(?: [^→]*)? → ", sig)
        if m and not m.group(2).startswith(("Need", "invariant", "decreases")):
            helpers[m.group(1)] = m.group(2)

    arms = {}
    for a in entry["arms"]:
        if a:
            for new, state, steps in a[2]:
                if not new.endswith("-own"):
                    arms[(norm(state), tuple(steps))] = f"{a[0]}.{new}"
    typed = {norm(state): new for row in entry["typed"] for new, state in row}

    def member(m):
        name, path = m.group(1), [x for x in (m.group(2) or "").split(".") if x]
        for n in (norm(name), norm(re.sub(r"_(lem|met)$", "", name))):
            for k in range(len(path), -1, -1):
                if (n, tuple(path[:k])) in arms:
                    return "c." + ".".join([arms[(n, tuple(path[:k]))], *path[k:]])
            if path[:1] == ["given"] and n in typed:
                return "c." + ".".join(["type_inv", typed[n], *path[1:]])
        return "c." + ".".join([field(name), *path])

    def field(name):
        for n in (norm(name), norm(re.sub(r"_(lem|met)$", "", name)), norm(re.sub(r"^does_", "", name)), norm(name) + "s"):
            if n in fields:
                return fields[n]
        return {"inv": "invariant", "pre": "requires"}.get(name, re.sub(r"_[A-Z]", lambda m: m.group(0).lower(), name))

    instances = {}

    def instance(h, place):
        """The helper at the place of the goal that uses it; a helper that several places use stands once for each."""
        mine = instances.setdefault(h, {})
        if place not in mine:
            mine[place] = None
            mine[place] = h if len(mine) == 1 else f"{h}_{len(mine)}"
            made.append((h, place, mine[place]))
        return mine[place] or h

    made = []

    def simplify(body, var, goal):
        """The body over c, with no walk back; var is the name of the state."""
        names = {var}
        prev = None
        while prev != body:
            prev = body
            alt = "|".join(sorted(map(re.escape, names), key=len, reverse=True))
            edge = r"(?<![\w.'-])"
            body = re.sub(edge + rf"({alt})((?:\.before)+)(?![\w'-])", lambda m: m.group(1), body)
            body = re.sub(edge + rf"\(({alt})\)", lambda m: m.group(1), body)
            for s in states:
                body = re.sub(edge + rf"\({re.escape(s)} ({alt})\)", lambda m: m.group(1), body)
                body = re.sub(rf"(= ){re.escape(s)} ({alt})( in)", lambda m: m.group(1) + m.group(2) + m.group(3), body)
            m = re.search(rf"let (" + WORD + rf") = ({alt}) in\s*", body)
            if m:
                body = body[: m.start()] + body[m.end() :]
                names.add(m.group(1))
        alt = "|".join(sorted(map(re.escape, names), key=len, reverse=True))
        for h in helpers:
            body = re.sub(rf"(?<![\w.'-]){re.escape(h)} (?:{alt})(?![\w.'-])", lambda m: f"{instance(h, goal)} c", body)
        body = re.sub(rf"(?<![\w.'-])(?:{alt})\.(" + WORD + r")((?:\.(?:" + WORD + r"))*)", member, body)
        body = re.sub(rf"(?<![\w.'-])(?:{alt})(?![\w'-])(?!\.)", "c", body)
        body = re.sub(r"(?<![\w'-])c\.pre(?![\w'-])", "c.requires", body)
        return body

    texts = {}

    def helper(h, place, name):
        comment, code = texts[h]
        whole_d = "\n".join(code)
        old = helpers[h]
        idx = re.search(rf"^{re.escape(h)}\s", whole_d[len(code[0]) :], re.M)
        cut = len(code[0]) + idx.start() if idx else len(whole_d)
        sig, eqs = whole_d[:cut].rstrip("\n"), whole_d[cut:]
        bound = re.search(r"\((" + WORD + rf") : tie\.{re.escape(old)}(?: [^)]*)?\)", sig)
        if bound:
            sig = sig.replace(bound.group(0), "(@STATE@)", 1)
            sig = simplify(sig, bound.group(1), place)
            sig = sig.replace("(@STATE@)", f"(c : goal.{place})", 1)
        else:
            sig = re.sub(rf"tie\.{re.escape(old)}(?: [^→]*)? →", f"goal.{place} →", sig, 1)
        me = re.match(rf"\s*{re.escape(h)}\s+(" + WORD + r")((?:\s+[^\s=]+)*)\s*=\s*(.*)", eqs, re.S)
        if not me:
            raise Left(f"helper {h}")
        sig = re.sub(rf"^((?:abbrev |unfoldable )?){re.escape(h)} :", lambda m: f"{m.group(1)}{name} :", sig)
        return comment + (sig + f"\n{name} c{me.group(2)} = " + simplify(me.group(3), me.group(1), place)).split("\n")

    answers, invariants, others, inv_records = [], [], [], []
    for d in decls:
        comment = [l for l in d if l.startswith("--") and not re.match(r"-- src/", l)]
        code = [l for l in d if not l.startswith("--")]
        if not code:
            others.append(("comment", comment))
            continue
        first = code[0]
        if re.search(r"-spec : |_spec : ", first) or "tie.close" in "\n".join(code):
            continue
        m = re.match(r"(?:abbrev )?(invariant-" + WORD + r") : tie\.", first)
        k = re.match(r"(?:abbrev )?(decreases-" + WORD + r") : tie\.", first)
        if m or k:
            kind = "invariant" if m else "decreases"
            local = (m or k).group(1)
            # the label of the loop is in tie.invariant-LABEL
            lab = re.search(rf"tie\.{kind}-(" + WORD + ")", first)
            loop = norm(lab.group(1)) if lab else norm(local[len(kind) + 1 :])
            if loop not in loops:
                raise Left(f"no loop {loop} among {list(loops)}")
            newname, args = loops[loop]
            flags = changed[loop]
            eq = "\n".join(code[1:])
            mm = re.match(rf"\s*{re.escape(local)}((?:\s+[^\s=]+)*)\s*=\s*(.*)", eq, re.S)
            unfold = ""
            params = mm.group(1).split()
            body = mm.group(2)
            want = [f"l.{a}" if not ch else f"l.initial.{a}" for a, ch in zip(args, flags)] + [f"l.{a}" for a, ch in zip(args, flags) if ch]
            if len(params) != len(want):
                raise Left(f"{local}: {len(params)} arguments and {len(want)} values: {params} / {want}")
            sub = {p: w for p, w in zip(params, want) if p != "_"}
            names = "|".join(sorted(map(re.escape, sub), key=len, reverse=True))
            body = re.sub(rf"(?<![\w.'₀-₉-])({names})(?![\w'₀-₉-])(?!\s*=\s)", lambda m: sub[m.group(1)], body)
            invariants.append((comment, [f"abbrev pub {kind}-{newname} : goal.{kind}-{newname}", f"{kind}-{newname} l = {body}"]))
            continue
        m = re.match(r"(?:abbrev )?(" + WORD + r")\s*:\s*tie\.Need-", first)
        if m:
            local = m.group(1)
            g = goal_for(local)
            if g is None:
                raise Left(f"no goal for {local} ({orig_label.get(norm(local))})")
            eq = "\n".join(code[1:])
            lines = [l for l in code[1:] if l.startswith("unfolding")]
            eq = "\n".join(l for l in code[1:] if not l.startswith("unfolding"))
            mm = re.match(rf"\s*{re.escape(local)}((?:\s+[^\s=]+)*)\s*=\s*(.*)", eq, re.S)
            if not mm:
                raise Left(f"equation of {local}")
            if mm.group(2).strip() in ("search rules", "search needs") and not lines:
                continue
            params = mm.group(1).split()
            body = mm.group(2)
            if params:
                body = simplify(body, params[0], place_of_goal[g][1])
            answers.append((comment, [f"pub {g} : goal.{g}", *lines, f"{g} c = {body}"]))
            continue
        name = re.match(r"(?:abbrev |unfoldable |pub )*(" + WORD + ")", first)
        if name and name.group(1) in states:
            continue
        whole_d = "\n".join(code)
        h = re.match(r"(?:abbrev |unfoldable )?(" + WORD + r") :", first)
        if h and h.group(1) in helpers:
            texts[h.group(1)] = (comment, code)
            continue
        if re.match(r"record ", first):
            body = ["pub " + first] + [re.sub(r"^(\s+)(?!pub )(" + WORD + r"(?:\s+" + WORD + r")*) :", r"\1pub \2 :", l) for l in code[1:]]
            inv_records.append((comment, body))
            continue
        others.append(("other", comment + code))

    shown, k = [], 0
    while k < len(made):
        shown.append((made[k][0], helper(*made[k])))
        k += 1
    rank = list(texts)
    shown.sort(key=lambda it: rank.index(it[0]))
    others += [("helper", t) for _, t in shown]

    def text_of(items):
        return "\n\n".join("\n".join([*c, *b]) for c, b in items)

    mod = module_of(crate, fn)
    inv_text = ans_text = None
    plain = [o for k, o in others if k == "other"]
    rest = [o for k, o in others if k != "other"]
    if invariants:
        records = "\n" + text_of(inv_records) + "\n" if inv_records else ""
        inv_text = "\n".join([*head, *uses, f"use {mod}.Given as goal", ""]) + records + "\n" + text_of(invariants) + "\n"
    elif inv_records:
        plain = [c + b for c, b in inv_records] + plain
    if answers:
        pre = "\n\n".join("\n".join(o) for o in plain + rest)
        body = text_of(answers)
        ans_head = head if not invariants else []
        extra = []
        used = [re.match(r"pub record (" + WORD + ")", b[0]).group(1) for c, b in inv_records]
        used = [u for u in used if re.search(rf"(?<![\w.]){re.escape(u)}(?![\w])", pre + body)]
        if invariants and used:
            extra = [f"use {mod}.Invariants.{{{', '.join(used)}}}"]
        ans_text = "\n".join([*ans_head, *uses, *extra, f"use {mod}.Goals as goal", ""]) + ("\n" + pre + "\n" if pre else "") + "\n" + body + "\n"
    for name, t in (("Invariants.antt", inv_text), ("Answers.antt", ans_text)):
        if t:
            with open(f"{folder}/{name}", "w", encoding="utf-8") as f:
                f.write(t)
    os.remove(path)
    if not os.listdir(folder):
        os.removedirs(folder)
    kept = text_of(answers) + "\n".join("\n".join(o) for o in rest)
    if "tie." in kept or "lts." in kept or "reads." in kept:
        say(f"left: {crate} {fn}: still cites the older form")


def main(argv):
    crate, names, only = argv[0], json.load(open(argv[1])), argv[2:]
    pre = f"Rattle-{crate}-proofs."
    base = f"{ROOT}/crates/{crate}/proofs"
    done = 0
    for folder, dirs, fs in sorted(os.walk(base)):
        if "Proof.antt" not in fs:
            continue
        fn = os.path.relpath(folder, base)
        if only and fn not in only:
            continue
        text = open(f"{folder}/Proof.antt", encoding="utf-8").read()
        if "tie.close" not in text:
            print(f"left: {crate} {fn}: walks the code by hand")
            continue
        entry = names.get(pre + fn.replace("/", ".") + ".Lts")
        if entry is None:
            print(f"left: {crate} {fn}: no names")
            continue
        try:
            convert(crate, fn, entry, print)
            done += 1
        except (Left, AttributeError, KeyError, IndexError) as e:
            print(f"left: {crate} {fn}: {type(e).__name__} {e}")
    print(f"{crate}: {done} turned")


main(sys.argv[1:])
