#!/usr/bin/env python3
"""Brings must-fail/*.edit texts to today's spelling of code, and reports each edit whose `old:` text does not stand exactly once in its file.

usage: python3 tools/respell_edits.py [NAME..]      at the top of the checkout, after respell.py. No NAME: all crates.
       python3 tools/respell_edits.py --from COMMIT [NAME..]   also mends: finds the lines of `old:` in the file as it stood at COMMIT (before port.py), takes today's line(s)
       at the matching place (by difflib over lines), and, where only that line's spelling changed, writes it with the edit's own wrong change made by words.

Each pair old/new applies to what the earlier pairs made. Exit status 1 where a text does not stand once.
"""
import difflib, os, re, subprocess, sys

def parse(t):
    file, pairs, lines = None, [], t.split("\n")
    for i, l in enumerate(lines):
        if l.startswith("file:"): file = l[5:].strip()
        elif l.startswith("old: "): pairs.append([i, None, l[5:], None])
        elif l.startswith("new: ") or l == "new:": pairs[-1][1] = i; pairs[-1][3] = l[5:]
    return file, pairs, lines

def at(commit, path):
    r = subprocess.run(["git", "show", f"{commit}:{path}"], capture_output=True, text=True)
    return r.stdout if r.returncode == 0 else None

def mend(old, new, before, now):
    """Today's text for old and new, or None. before, now: the file's texts."""
    if before is None or before.count(old) != 1: return None
    a, b = before.split("\n"), now.split("\n")
    k = before[:before.index(old)].count("\n")
    # the line of b that stands where line k of a stood: by matching blocks over stripped lines, else the nearest like it
    best = None
    for tag, i1, i2, j1, j2 in difflib.SequenceMatcher(None, [x.strip() for x in a], [x.strip() for x in b], autojunk=False).get_opcodes():
        if i1 <= k < i2:
            if tag == "equal": best = [j1 + k - i1]
            else: best = list(range(j1, j2))
    if not best: return None
    line = max(best, key=lambda j: difflib.SequenceMatcher(None, a[k], b[j], autojunk=False).ratio())
    if difflib.SequenceMatcher(None, a[k], b[line], autojunk=False).ratio() < 0.6: return None
    W = re.compile(r"\w+|\s+|[^\w\s]")
    w = lambda s: W.findall(s)
    ow, nw, aw, bw = w(old), w(new), w(a[k]), w(b[line])
    # where old stands in a[k], as words of b[line]
    s = len(w(a[k][:a[k].index(old)])); e = s + len(ow)
    if aw[s:e] != ow: return None
    m = difflib.SequenceMatcher(None, aw, bw, autojunk=False)
    def to(pos, end):
        for tag, i1, i2, j1, j2 in m.get_opcodes():
            if tag == "equal" and i1 <= pos <= i2: return j1 + pos - i1
            if i1 < pos < i2 or (pos == i1 and not end) or (pos == i2 and end): return j1 if pos == i1 else j2
        return len(bw)
    js, je = to(s, False), to(e, True)
    today = bw[js:je]
    # the edit's own change, carried over words: for each changed piece of old, the same piece in today's words
    out, m2 = [], difflib.SequenceMatcher(None, ow, today, autojunk=False)
    def place(pos):
        for tag, i1, i2, j1, j2 in m2.get_opcodes():
            if tag == "equal" and i1 <= pos <= i2: return j1 + pos - i1
        return None
    last = 0
    for tag, i1, i2, n1, n2 in difflib.SequenceMatcher(None, ow, nw, autojunk=False).get_opcodes():
        if tag == "equal": continue
        p, q = place(i1), place(i2)
        if p is None or q is None or p < last: return None
        out += today[last:p] + nw[n1:n2]; last = q
    out += today[last:]
    return "".join(today), "".join(out)

TOK = re.compile(r'[^\s(){}.;,@"«»\[\]`]+')
def spelled(t):
    """The scripts' spelling of a line of antt: tight projections, snake case, an apostrophe for a prime."""
    t = t.replace("\u2032", "'")
    while True:
        u = re.sub(r"\(([\w'.]+) \.([a-z_]\w*|\d+)((?: \.[\w]+)*)\)", lambda m: m[1] + "." + m[2] + m[3].replace(" .", ".") , t)
        atom = r"(?:[\w'][\w'.]*|\[\]|\((?:[^()]|\((?:[^()]|\([^()]*\))*\))*\))"
        # f x .field is (f x).field
        u = re.sub(rf"(^|[=(;{{,→≡≤<∷+×*] ?)({atom}(?: {atom})+)((?: \.[a-z_]\w*)+)", lambda m: m[1] + "(" + m[2] + ")" + m[3].replace(" ", ""), u)
        u = re.sub(r"(?<=[\w')]) \.(?=[a-z0-9])(?!\.)", ".", u)
        u = re.sub(r"\((\((?:[^()]|\([^()]*\))*\)(?:\.\w+)+)\)", r"\1", u)
        u = re.sub(r"\(([a-z_][\w']*(?:\.[a-z_]\w*)+)\)", r"\1", u)
        if u == t: break
        t = u
    hump = lambda w: re.sub(r"(?<=[a-z0-9])([A-Z])", lambda m: "_" + m[1].lower(), w) if re.match(r"[a-z]\w*[A-Z]", w) else w
    t = TOK.sub(lambda m: "-".join(hump(x) for x in m[0].split("-")), t)
    return re.sub(r"(?<![\w-])([a-z]+)-([a-z]+)(?![\w-])", lambda m: m[1] + "_" + m[2], t)

def main():
    args = sys.argv[1:]; commit = None
    if args[:1] == ["--from"]: commit, args = args[1], args[2:]
    names = args or sorted(os.listdir("crates")); bad = total = mended = 0
    for c in names:
        d = f"crates/{c}/must-fail"
        for x in sorted(os.listdir(d)) if os.path.isdir(d) else []:
            if not x.endswith(".edit"): continue
            total += 1; p = f"{d}/{x}"; t = open(p, encoding="utf-8").read()
            file, pairs, lines = parse(t); path = f"crates/{c}/{file}"
            if not os.path.isfile(path): print(f"bad: {p}: no file {file}"); bad += 1; continue
            now = open(path, encoding="utf-8").read(); before = at(commit, path) if commit else None; ok = True
            for i, j, old, new in pairs:
                if not file.startswith("src/") and now.count(spelled(old)) == 1 and (spelled(new) != new or spelled(old) != old):
                    old, new = spelled(old), spelled(new)
                    lines[i], lines[j] = "old: " + old, "new: " + new; mended += 1
                if now.count(old) != 1:
                    got = (spelled(old), spelled(new)) if not file.startswith("src/") else None
                    if not got or now.count(got[0]) != 1:
                        got = mend(old, new, before, now) if commit else None
                    if got and now.count(got[0]) == 1 and got[0] != got[1]:
                        print(f"mended: {p}:\n    {old}\n -> {got[0]}\n    {new}\n -> {got[1]}")
                        lines[i], lines[j] = "old: " + got[0], "new: " + got[1]; mended += 1
                        if before: before = before.replace(old, new, 1)
                        old, new = got
                    else:
                        print(f"bad: {p}: stands {now.count(old)} times in {file}: {old}"); ok = False; break
                elif before and before.count(old) == 1: before = before.replace(old, new, 1)
                now = now.replace(old, new, 1)
            bad += not ok
            if ok and "\n".join(lines) != t: open(p, "w", encoding="utf-8").write("\n".join(lines))
    print(f"edits: {total}, {mended} mended, {bad} bad"); sys.exit(1 if bad else 0)
main()
