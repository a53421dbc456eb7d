#!/usr/bin/env python3
"""Respells the repository's OWN names (definitions, lemmas, fields, constructors of specs/ and proofs/) for Rattle's style of names.

usage: python3 tools/respell.py [--check]     at the top of a checkout, after the kit's port.py (deterministic; a second run changes nothing)

What it turns, by whole tokens, never by substring:
  camelCase            snake_case                  wordAt -> word_at, length-bytesAt -> length-bytes_at
  getD-x               get_or-x                    (own lemmas about std's get_or)
  a-b of a lemma       a-b where b names a definition of specs/ or a word of std's lemma names (length-splice, splice-set), else a_b (run_before)
  fields, constructors always with underscores     in-copy -> in_copy
  eqb, leb, ltb        nat_eq, nat_le, nat_lt      in specs/ and in clauses only (they are abbrevs of one another)
Where: specs/*.antt, proofs/**/*.antt, clauses and `ghost` lines of src/*.rt, comments (camelCase tokens, and tokens between backticks), must-fail/*.edit.
A Proof.antt's own answers (`x : tie.Need-..`) and `f_spec` are not names of the repository's: they stay.
It prints  clash: ..  for names that would fall together and are not in TABLE, and then changes nothing.
"""
import os, re, sys, collections

# old name -> new name, where the rule gives a name that is taken or reads badly
TABLE = {
    "change-list": "change_list",       # a constructor of Call, beside changes' changeList: never in one file
    "changeList": "change_list",
    "data-row": "data_row_lem",
    "of-data": "about_data",            # constructors of Answer, beside the columns ofData and ofRegion
    "of-region": "about_region",
    "page-in": "page_in_lem",
    "pages-at": "pages_at_is",          # fields that say where a word is, beside layout's constants
    "shadow-at": "shadow_at_is",
    "table-at": "table_at_is",
    "store-of": "store_of_is",
    "start-of": "from_start",
}
# pairs that become one, and never meet in a file
APART = {"change_list"}
# never touched
KEEP = set()
# right parts that keep the dash before them: words of std's own lemma names (an operator or a function of std)
STD_WORDS = set("""length get_or append set take drop cons snoc zero suc insert map filter replicate add sub mul pow mod div
eqb leb ltb le lt ge sum reverse""".split())
KINDS = {"eqb": "nat_eq", "leb": "nat_le", "ltb": "nat_lt"}

TOK = re.compile(r'[^\s(){}.;,@"«»\[\]`]+')
MODS = r"(?:(?:abbrev|unfoldable|pub|opaque|ghost|instance|mutual|inline)\s+)*"
DECL = re.compile(rf"^(\s*)({MODS})(record\s+|data\s+|ruleset\s+)?([^\s(){{}}:.,;]+)((?:\s*(?:\{{[^}}]*\}}|\([^()]*\)))*)\s*:\s")

def walk(sub, ends):
    for c in sorted(os.listdir("crates")):
        for s in sub:
            for f, ds, fs in os.walk(os.path.join("crates", c, s)):
                ds.sort()
                for x in sorted(fs):
                    if x.endswith(ends):
                        yield os.path.join(f, x)

def read(p):
    with open(p, encoding="utf-8") as f:
        return f.read()

def code(t):
    return re.sub(r"(?m)(?<![^\s(){}.;,])--[^\n]*", "", t)

def humps(seg):
    """camelCase to snake_case; a fact or a type in it (UpperCamel from the start) stays."""
    m = re.fullmatch(r"(.*?)([\u2080-\u2089']*)", seg)
    w, tail = m[1], m[2]
    if not w or not w[0].islower():
        return seg
    return re.sub(r"(?<=[a-z0-9])([A-Z])", lambda m: "_" + m[1].lower(), w) + tail

def declared():
    """name -> set of kinds, and where."""
    kinds, where = collections.defaultdict(set), collections.defaultdict(set)
    for p in walk(["specs", "proofs"], ".antt"):
        block = None
        for line in code(read(p)).split("\n"):
            if not line.strip() or line.lstrip().startswith(("use ", "pub use ", "mod ", "pub mod ")):
                continue
            ind = len(line) - len(line.lstrip())
            if block and ind <= block[1]:
                block = None
            m = DECL.match(line)
            if m:
                name, head = m[4], (m[3] or "").strip()
                rest = line[m.end():]
                if os.path.basename(p) == "Proof.antt" and (re.match(r"tie\.|\{M : Type 1\}", rest) or name.startswith(("invariant-", "decreases-"))):
                    kind = "answer"
                elif os.path.basename(p) in ("Answers.antt", "Invariants.antt") and rest.startswith("goal."):
                    kind = "answer"
                elif head in ("record", "data"):
                    kind = "type"
                elif block:
                    kind = block[0]
                elif "/specs/" in p:
                    kind = "def"
                else:
                    kind = "lemma"
                kinds[name].add(kind); where[name].add(p)
                if head in ("record", "data") and line.rstrip().endswith("where"):
                    block = ("member", ind)
    return kinds, where

def new_names(kinds):
    names = set(STD_WORDS)
    for n, k in kinds.items():
        if k & {"def", "type"} and "-" not in n:
            names.add(humps(n))
    out = {}
    for n, k in sorted(kinds.items()):
        if n in KEEP or k == {"answer"} or not re.match(r"[A-Za-zμ]", n):
            continue
        if n in TABLE:
            out[n] = TABLE[n]; continue
        segs = [humps(s) for s in n.split("-")]
        if segs[0] == "get_d":
            segs[0] = "get_or"
        new = segs[0]
        for s in segs[1:]:
            bare = s.rstrip("'")
            left = new.split("-")[-1]
            is_name = lambda x: x in names or x[:1].isupper()
            dash = is_name(left) and is_name(bare) and "member" not in k
            new += ("-" if dash else "_") + s
        if new != n:
            out[n] = new
    # a lemma that would have its function's name gets _lem
    defs = {out.get(n, n) for n, k in kinds.items() if k & {"def", "type"} and n not in TABLE}
    for n, k in kinds.items():
        if k == {"lemma"} and out.get(n, n) in defs and n not in TABLE:
            out[n] = out.get(n, n) + "_lem"
    return out

def imported_elsewhere(text, n):
    for m in re.finditer(r"use ((?!Rattle\.)[\w.]+|Rattle\.(?:std|core)\.[\w.]+)\.\{([^}]*)\}", text):
        if n in [x.strip().split(" as ")[0] for x in m[2].split(",")]:
            return True
    return False

def clashes(table, kinds, where):
    """Two old names that become one; a new name that a file has already."""
    said = []
    back = collections.defaultdict(list)
    for o, n in table.items():
        back[n].append(o)
    for n, os_ in sorted(back.items()):
        if len(os_) > 1 and n not in APART:
            said.append(f"clash: {' and '.join(os_)} become {n}")
    for n in sorted(back):
        if n in kinds and n not in table and kinds[n] != {"answer"}:
            said.append(f"clash: {back[n][0]} ({sorted(where[back[n][0]])[0]}) becomes {n}, which is declared in {sorted(where[n])[0]}")
    for p in walk(["specs", "proofs"], ".antt"):
        c = code(read(p)); toks = set(TOK.findall(c))
        # a name behind a dot or in a path is a field or a module, and hides nothing
        bare = set(re.findall(r'(?<![^\s(){},;@"«»\[\]`])([^\s(){}.;,@"«»\[\]`]+)(?!\.)', c)) 
        for n in APART & set(table.values()):
            if sum(o in toks for o in back[n]) > 1:
                said.append(f"clash: {p}: has two of {back[n]}")
        for o in toks & set(table):
            if os.path.basename(p) == "Proof.antt" and table[o] in bare and table[o] not in table:
                print(f"look: {p}: has {o}, and {table[o]} of its own")
            elif table[o] in bare and table[o] not in table:
                said.append(f"clash: {p}: has {o} and {table[o]}")
            if imported_elsewhere(c, o):
                said.append(f"clash: {p}: {o} is a library's here")
    # a parameter of a Rust function hides a word that its clauses cite
    for p in walk(["src"], ".rt"):
        t = re.sub(r"//[^\n]*", "", read(p))
        for m in re.finditer(r"\bfn (\w+)[^({]*\(([^)]*)\)([^{]*(?:(?:requires|ensures)\*?[^{]*\{[^{}]*(?:\{[^{}]*\}[^{}]*)*\}\s*)*)", t):
            params = set(re.findall(r"(\w+)\s*:", m[2]))
            cited = {table[x] for x in TOK.findall(m[3]) if x in table}
            for x in sorted(params & cited):
                said.append(f"clash: {p}: fn {m[1]}: the parameter {x} hides the word {x}")
    return sorted(set(said))

def turn_code(t, table):
    return TOK.sub(lambda m: table.get(m[0], m[0]), t)

def turn_comment(t, table):
    t = re.sub(r"`([^`\n]*)`", lambda m: "`" + turn_code(m[1], table) + "`", t)
    return re.sub(r"(?<![\w/.-])[a-z]\w*[A-Z]\w*(?![\w/])", lambda m: table.get(m[0], m[0]), t)

def antt(t, table, kinds):
    parts = re.split(r"((?<![^\s(){}.;,])--[^\n]*)", t)
    use = {**table, **kinds}
    # behind c. a lemma's name is a call's, which got no _lem
    parts = [x if x.startswith("--") else re.sub(r"(?<=[\w)]\.)([^\s(){}.;,@\"«»\[\]`]+)", lambda m: table[m[0]][:-4] if table.get(m[0], "").endswith("_lem") else m[0], x) for x in parts]
    return "".join(turn_comment(x, use) if x.startswith("--") else turn_code(x, use) for x in parts)

CLAUSE = re.compile(r"\s*(pub )?(ghost|requires|ensures|decreases|invariant|also_owns|also_shares)\b")
def rt(t, table, kinds):
    out, inside, depth = [], False, 0
    use = {**table, **kinds}
    for line in t.split("\n"):
        cut = re.match(r'((?:[^"/]|"(?:\\.|[^"\\])*"|/(?!/))*)(//.*)?$', line, re.S)
        body, com = (cut[1], cut[2] or "") if cut else (line, "")
        if not inside and CLAUSE.match(body):
            inside, depth = True, 0
        if inside:
            depth += body.count("{") - body.count("}")
            body = turn_code(body, use)
            if depth <= 0:
                inside = False
        else:
            # Rust has no camelCase words of its own
            body = TOK.sub(lambda m: table[m[0]] if m[0] in table and re.match(r"[a-z]\w*[A-Z]", m[0]) else m[0], body)
        out.append(body + turn_comment(com, use))
    return "\n".join(out)

def edit(t, table, kinds):
    use = {**table, **kinds}; out = []; file = ""
    for line in t.split("\n"):
        if line.startswith("file:"):
            file = line[5:].strip()
        elif line.startswith(("old:", "new:")):
            k, v = line[:4], line[4:]
            ghosty = file.startswith(("specs/", "proofs/")) or re.match(r"\s*(requires|ensures|ghost)\b", v)
            line = k + (turn_code(v, use if not file.startswith("proofs/") else table) if ghosty else
                        TOK.sub(lambda m: table[m[0]] if m[0] in table and re.match(r"[a-z]\w*[A-Z]", m[0]) else m[0], v))
        elif line.startswith("#"):
            line = turn_comment(line, use)
        out.append(line)
    return "\n".join(out)

def fold_kinds(t):
    """nat_eq, nat_eq twice in one use list is written once."""
    def once(m):
        seen = []
        for x in m[2].split(","):
            x = x.strip()
            if x and x not in seen:
                seen.append(x)
        return m[1] + "{" + ", ".join(seen) + "}"
    return re.sub(r"(use [\w.]+\.)\{([^{}]*)\}", once, t)

def main():
    check = "--check" in sys.argv
    kinds, where = declared()
    table = new_names(kinds)
    said = clashes(table, kinds, where)
    for s in said:
        print(s)
    if check:
        for o, n in sorted(table.items()):
            print(f"  {o} -> {n}")
    if said:
        print(f"{len(said)} clashes: give them rows in TABLE"); sys.exit(1)
    n = 0
    for p in list(walk(["specs", "proofs"], ".antt")) + list(walk(["src"], ".rt")) + list(walk(["must-fail"], ".edit")):
        t = read(p)
        if p.endswith(".antt"):
            u = antt(t, table, KINDS if "/specs/" in p else {})
        elif p.endswith(".rt"):
            u = rt(t, table, KINDS)
        else:
            u = edit(t, table, KINDS)
        if "/specs/" in p or p.endswith(".rt"):
            u = fold_kinds(u) if u != t else u
        if u != t:
            n += 1
            if not check:
                with open(p, "w", encoding="utf-8") as f:
                    f.write(u)
    print(f"respell: {len(table)} names, {n} files" + (" (not written)" if check else ""))

main()
