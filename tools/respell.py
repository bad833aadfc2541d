#!/usr/bin/env python3
"""Respells the repository's own definitions and lemmas, once, at its top: words in snake case, facts and types in camel case.

A name is the repository's own if a file of specs/ or proofs/ declares it. Names that Rattle makes (the goals that answers are
given to) and names that a file imports from another place stay. Where a file that names one also has its new spelling for a
function, it ends in _lem. Names that would fall together are reported, and stay.
"""
import os, re, sys, glob

TOKEN = re.compile(r"[A-Za-z_Α-Ωα-ωℕℤ0-9][\w'′ℕℤ₀-₉]*(?:-[\w'′+*=<≤≡ℕℤ₀-₉]+)*", re.U)
DECLARED = re.compile(r"^(\s*)((?:pub |abbrev |unfoldable |private )*)([^\s(){}]+(?: [^\s(){}:]+)*)\s*:\s")
ALIAS = re.compile(r"\bas ([^\s,{}]+)")
HEADED = re.compile(r"^\s*(?:pub |abbrev |unfoldable )*(?:data|record|module)\s+(?:pub )?([^\s(){}:]+)")


# locals, and aliases that stand beside a field of the same spelling
CHOSEN = {"chains-room": "room_of_chains", "trie-room": "room_of_trie", "same-value": "same_value", "same-steps": "same_steps", "long-w": "long_w",
          "open-end": "open_end"}


def files(kind):
    out = []
    for root in sorted(glob.glob("crates/*")):
        for folder, _, names in os.walk(root):
            if "/out" in folder:
                continue
            for n in sorted(names):
                if n.endswith(kind):
                    out.append(os.path.join(folder, n))
    return out


def respelt(name):
    parts = name.split("-")
    if any(p == "" for p in parts):
        return None
    if name[0].isupper():
        return "".join(p if p[0].isupper() else p[0].upper() + p[1:] for p in parts)
    return "_".join(p if len(p) == 1 and p.isupper() else p for p in parts)


def imports(text):
    """name -> module, for each name that a `use` line takes from a list"""
    out = {}
    for m in re.finditer(r"\buse\s+([^\s{};]+?)\.\{([^}]*)\}", text):
        for item in m.group(2).split(","):
            item = item.strip()
            if not item:
                continue
            first = item.split(" as ")[0].strip()
            last = item.split(" as ")[-1].strip()
            out[last] = (m.group(1), first)
    return out


def main():
    antt = files(".antt")
    rt = files(".rt")
    crates = {os.path.basename(p) for p in glob.glob("crates/*")}
    own, where = {}, {}
    for path in antt:
        text = open(path).read()
        for line in text.split("\n"):
            if line.lstrip().startswith("--"):
                continue
            if line.startswith("use "):
                for n in ALIAS.findall(line):
                    own.setdefault(n, set()).add(path)
                continue
            m = HEADED.match(line)
            if m:
                own.setdefault(m.group(1), set()).add(path)
                continue
            m = DECLARED.match(line)
            if m:
                rest = line[m.end():].strip()
                if re.match(r"(goal|need|needs)\.", rest) or re.match(r"(returns|loop|invariant|decreases)-", m.group(3)):
                    continue
                for n in m.group(3).split(" "):
                    own.setdefault(n, set()).add(path)
    for path in rt:
        for line in open(path).read().split("\n"):
            if line.startswith("ghost use "):
                for n in ALIAS.findall(line.rstrip(";")):
                    own.setdefault(n, set()).add(path)
    own = {n: w for n, w in own.items() if "-" in n and re.fullmatch(TOKEN, n)}
    texts = {p: open(p).read() for p in antt + rt + files(".edit")}
    tokens = {}
    for p, t in texts.items():
        for tok in set(TOKEN.findall(t)):
            tokens.setdefault(tok, set()).add(p)
    chosen = {}
    for n in sorted(own):
        new = respelt(n)
        if n in CHOSEN:
            continue
        if new is None:
            print("left:", n)
            continue
        if new in tokens:
            if tokens[new] & tokens[n]:
                new += "_lem"
            print("also elsewhere:", n, "->", new, sorted(tokens.get(new, []))[:3])
        chosen[n] = new
    chosen.update({n: new for n, new in CHOSEN.items() if n in tokens})
    back = {}
    for n, new in chosen.items():
        back.setdefault(new, []).append(n)
    for new, ns in back.items():
        if len(ns) > 1:
            print("fall together:", ns, "->", new)
            for n in ns:
                del chosen[n]
    if "--list" in sys.argv:
        for n in sorted(chosen):
            print(n, "->", chosen[n])
        return
    changed = 0
    for p, t in texts.items():
        taken = imports(t)
        stay = set()
        for n, (module, first) in taken.items():
            head = module.split(".")
            if not (head[0] == "Rattle" and len(head) > 1 and head[1] in crates):
                stay.add(n)
        def turn(m):
            w = m.group(0)
            if w in chosen and w not in stay:
                return chosen[w]
            return w
        out = []
        for line in t.split("\n"):
            code, dash, comment = line, "", ""
            if p.endswith(".rt"):
                cut = re.search(r"(?<!:)//", line)
                mark = cut.start() if cut else -1
            else:
                cut = re.search(r"(?:^|\s)--(?=\s|$)", line)
                mark = cut.start() if cut else -1
            if mark >= 0:
                code, comment = line[:mark], line[mark:]
            made = re.match(r"^(\s*)((?:pub |abbrev )*)([^\s(){}]+)(\s*:\s*)(goal|need|needs)\.", code)
            if made:
                out.append(line)
                continue
            out.append(TOKEN.sub(turn, code) + comment)
        new = "\n".join(out)
        if new != t:
            open(p, "w").write(new)
            changed += 1
    print("respelt", len(chosen), "names in", changed, "files")


main()
