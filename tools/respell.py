#!/usr/bin/env python3
"""Respells a ported repository's own antt names by the kit's rules (CONTRACT_STYLE.md "Names"; antt/docs/primer-language.md 4.1b).

usage: respell.py              at the top of the repository, once, after port.py and its commit
       respell.py --check      writes nothing: prints what would change, and the self-check of the tree as it stands
       respell.py --uses       the self-check of the `use` lines alone
       respell.py --docs       also turns names in code spans of README.md and docs/*.md
       respell.py --no-dash    gives lemmas plain underscores too (a name with a dash cannot stand in `#[tactic(auto, using(..))]`, but for a ruleset that holds it)

It turns, token by token, at the definition and at every use (specs/, proofs/, clauses and `ghost use` of .rt, must-fail/*.edit):
  definitions, fields, constructors, local facts, variables     camelCase and dashes -> snake_case
  lemmas of proofs/*.antt     a dash stays between two names, a plain word hangs on by '_':
                              a part of the name is 'a name' if the lemma's statement has that word;
                              a fact keeps its capital; getD is get_or
  the theorem of a function   f-spec -> f_spec
It leaves: what is imported from the kit, goal names in proofs/F/*.antt, Rust names, strings, data.
It refuses a tree that has respelled-table.txt in docs/ (a second run) and stops, with nothing written, where two names of one file would meet.
What meets another is settled so: a lemma that would have the name of a definition gets `_lem`; the rest by the table HAND, each row with its reason.
Run `rt fmt` in each crate afterwards (it changed nothing here), and rt check.
"""
import collections, os, re, subprocess, sys

W = r'[^\s(){}.;,@"«»]+'
WORD = re.compile(W)
QUIET = re.compile(r'"(?:[^"\\\n]|\\.)*"|(?<![^\s(){}.;,@"«»])--[^\n]*|\{-.*?-\}', re.S)
SPAN = re.compile(r"`[^`\n]+`")
CHAIN = re.compile(rf'(?<![^\s(){{}};,@"«»]){W}(?:\.{W})*|(?<=[)}}»])(?:\.{W})+')
USE = re.compile(rf'(?m)\b((?:pub |ghost |unfoldable )*)use ({W}(?:\.{W})*)(?:\.\{{([^{{}}]*)\}})?(?: as ({W}))?')
DECL = re.compile(rf'^( *)((?:(?:pub|abbrev|unfoldable|pattern|axiom|opaque) )*)((?:record|data) )?((?:{W} )*?{W})((?: [({{][^\n]*?[)}}])*) :(?= |$)')
HEAD = re.compile(rf'^( *)((?:(?:pub|abbrev|unfoldable|pattern|axiom) )*)(record|data|module|mutual)\b(.*)$')
BLOCK = re.compile(r"(?<![^\s(){};,])(?:where|do|let|mutual) +(?=\S)")
CLAUSE = re.compile(r"(?:requires|ensures)\s*\*?\s*(?:\w+\s*)?\{|(?:invariant|decreases)\s*(?:\w+\s*)?\{|ghost\s*(?:\w+\s*(?::\s*(?:(?:owns|lends)\s*)?|=\s*))?\{")
GHOST_USE = re.compile(r"ghost\s+use\b[^;]*;")
RUST = re.compile(r"""//[^\n]*|/\*.*?\*/|[bc]?r(#*)".*?"\1|[bc]?"(?:\\.|[^"\\])*"|b?'(?:\\u\{[0-9a-fA-F_]+\}|\\x..|\\.|[^'\\])'|'?\w+|\s+|.""", re.S)
KEYWORDS = set("data record deriving module where use mod pub package open as unfoldable abbrev axiom unfold unfolding ruleset mutual infix infixl infixr elim let in do λ ∀".split())
RESERVED = set("data record deriving module where use mod pub package open as unfoldable abbrev axiom unfold unfolding ruleset mutual infix infixl infixr elim let in do λ ∀ Type 𝕀 𝔽 coe fcoe tcoe hcom com ∨ ∧ "
               "rw rw⁻¹ simp search grw cc omega grind hlevel assumption first_of cap V vin vproj in_s out_s ground tt Unit absurd yes no refl result syntax".split())
# The fields of records that Rattle or the kit makes: behind these heads a name stays (port.py's heads.txt, and what proofs by hand open).
MADE = re.compile(r"^(goal|c|w|l|g|tie|ctx|row|lts|code|met|kinds)[0-9₀-₉']*$")
# The words for operators, by a sign that the statement has.
SIGNS = {"append": "++", "add": "+", "mul": "*", "sub": "-", "div": "/", "mod": "%", "le": "≤", "lt": "<", "eq": "≡", "ne": "≢", "cons": "∷", "nil": "[]",
         "and": "&&", "or": "||", "mem": "Memᴰ", "iff": "↔"}
# Facts of the kit that lemmas of this repository speak of.
FACTS = {"So", "Dec", "IsTrue", "All", "Any", "Contains", "IsProp", "IsSet"}
# Spellings that the kit changed by more than case.
ALSO = {"getD": "get_or", "getd": "get_or", "ne0": "ne0"}
# Names that the kit's port.py spelled with '_' because a library has the same spelling: what they were.
TURNED = set("""add-a add-at add-low add-spec add-total add-wide added-none added-then after-one after-two ahead-more all-blocks all-done all-placed all-read all-same all-two and-right answerOf
any-append any-at apart-cons apart-next area-of aroundOf array-at array-behind array-long arrayOf as-long as-many at-1 at-a at-b at-call at-gap at-j at-last at-mem at-next at-other
at-place at-x backBy base-step baseOf behind-more beside-at bind-ok bits-in bitsAt bitsOf blk-in block-at block-back block-in block-more block-none block-size block-to blockOf
both-read built-of byte-more byte-next bytes-2 bytes-cut bytes-drop bytes-of bytes-same bytes-take bytesOf call-long call-same calls-same cast-ends cast-t cell-in cellOf cells-are
cells-count cells-same cells-told cellsIn cellsOf chain-head chain-next close-never closed-all code-at code-same code-up codeAt codes-at codes-same cond-same cond-small count-fits
count-low count-next count-none count-small countOf counted-none counted-spec crossing-is cut-at cut-short cut-word dec-some digits-decimal digits-more digits-same distinct-filter
distinct-snoc down-is each-append each-at each-counts edge-of either-same end-below end-is end-short end-whole endOf ends-last ends-low ends-snoc ends-there enter-spec entry-at
enum-told factOf field-cut fieldOf fields-bits fill-more filled-at filled-is filled-more filled-none filter-more filter-none find-spec finished-from first-bit first-byte
first-found first-leaf first-of first-some first-taken firstOf fit-of flat-line flatMap flip-twice float-in float-is float-out float-own float-unnamed floating-of found-first
found-in found-none foundAt four-quarters fresh-cells freshOf from-back from-next from-place from-row from-step front-length gap-at gap-is gap-same gathered-next gathered-none
getD-tail given-holds head-as head-bytes head-done head-first headBits headOf holds-on in-cells in-is in-kept in-list in-place in-reach in-size in-some in-tail index-same indexOf
inserted-new is-none is-whole is-within join-one kept-from kept-in kept-more kept-same kept-set kept-then keptAt kindAt kindOf label-kept labelAt last-end last-mem last-more
last-name last-none last-on last-step last-taken left-both left-in left-is left-not left-out left-over left-so leftHalf length-found lent-at lent-by line-of line-taken lineAt
lines-are lines-end lines-more lines-next lines-none lines-of lines-same lines-then linesFrom linesOf listFrom listed-at listed-more listed-same long-order look-spec low-word
main-spec map-at map-same mark-on mark-spec marked-more mask-at maskOf meetOf member-filter moved-by moved-to mul-at mul-left mul-next mul-wide name-set named-more near-none
negated-fits next-small no-bytes no-code no-digit no-gap no-length no-member no-number no-shift no-value none-ahead none-before none-beside none-first none-is none-kept none-left
none-more none-named none-owned none-passes none-read none-told none-yet not-negative not-opened not-so noted-more nothing-yet number-is number-lt number-same numberAt numberOf
of-spec of-two on-line on-same once-more one-block one-from one-left one-more one-of one-parent one-place one-shifted one-solution only-of only-one only-out open-code open-done
open-more open-spec opened-one or-else-none or-else-some orElse ordered-same other-length other-place other-width others-keep out-of-range own-at own-first own-key ownedBy owner-at
pairAt pairs-end pairs-next pairs-start part-by pass-on passed-first passed-none past-by place-in place-is place-other placed-row placed-same push-spec put-small put-spec
quarter-back range-split reach-few read-done read-spec readOf ready-of rest-end rest-more restOf rightHalf room-of round-trip row-at row-below row-read row-told rows-are rows-end
rows-long rows-more rows-none rows-told run-more runOf runs-same saidOf same-after same-bit same-bits same-differs same-head same-length same-line same-row same-step same-test
same-turn same-width says-none search-is second-is seen-more seen-other set-back shift-none sideIn sideOf sides-all sides-trans size-few size-is size-none sizeAt slice-all slice-at
slice-taken so-false so-far some-left some-size start-first startAt startOf step-cut step-down step-is step-left step-ok step-right step-small step-spec step-value stepOf
steps-next stepsOf sub-cells sub-more sub-wide sub-word sum-is sumOf table-on tallyOf tells-as test-below test-low test-zero textOf then-at then-ok then-turns to-back to-row
told-more too-few too-large too-long too-many too-short too-small true-of turn-at turn-more turn-one turn-spec turn-two two-from two-none two-to twoWords up-is upTo valF value-low
value-of value-same valueAt valueOf walk-end walk-more walk-start walked-none way-back way-in whole-again whole-cells whole-is whole-length whole-parts whole-room whole-words
wide-of widthBy with-none within-more word-room wordAt wordBytes words-left wordsOf write-read write-spec write-then written-is written-none written-one wrote-found wrote-none""".split())

# By hand: (file below crates/ or *, old) -> new, with the reason. Chosen where two names would meet.
HAND = {
    # The tactics' names: a definition so spelled hides the tactic in each file that imports it.
    ("certain/specs/Tree.antt", "search"): "search_of",
    ("literals/specs/Literals.antt", "first_of"): "first_found_of",
    # A constructor beside the test that it is about.
    ("reasons/proofs/Sound34.antt", "too_few"): "told_too_few",
    ("reasons/proofs/Sound34.antt", "too_many"): "told_too_many",
    ("reasons/proofs/Sound5.antt", "too-low"): "told_too_low",
    ("reasons/proofs/Sound5.antt", "too-high"): "told_too_high",
    # A lemma about the function of its own module.
    ("embed/proofs/InverseLaws.antt", "back-by"): "back_by_lem",
    ("paths/proofs/Crossings.antt", "arrow-cells"): "arrow_cells_lem",
    # A field beside the definition onArrow.
    ("*", "on-arrow", "field"): "are_on_arrow",
}


def snake(part):
    if part in ALSO:
        return ALSO[part]
    s = re.sub(r"(?<=[a-z0-9])([A-Z])", lambda m: "_" + m[1].lower(), part)
    return s


def plain(name):
    """snake_case with no dash."""
    if name[0].isupper():
        return name
    s = re.sub(r"getD(?![a-z])", "get_or", name)
    s = re.sub(r"(?<=[a-z0-9'])([A-Z])", lambda m: "_" + m[1].lower(), s)
    s = re.sub(r"(?<=[^\W_])-(?=[^\W_])", "_", s)
    return s


def wrong(name):
    return bool(re.search(r"(?<=[a-z0-9'])[A-Z]", name) and not name[0].isupper()) or bool(re.search(r"[^\W_]-[^\W_]", name))


def code_of(text):
    """The text with comments and strings blanked, of the same length."""
    return QUIET.sub(lambda m: re.sub(r"[^\n]", " ", m[0]), text)


class Decl:
    def __init__(self, file, name, cls, line, sig, mods, head, pub):
        self.file, self.name, self.cls, self.line, self.sig, self.mods, self.head, self.pub = file, name, cls, line, sig, mods, head, pub
        self.new = name


def declarations(path, text, is_spec):
    code = code_of(text).split("\n")
    out, stack = [], []  # stack: (indent, kind)
    for k, line in enumerate(code):
        if not line.strip():
            continue
        ind = len(line) - len(line.lstrip())
        while stack and ind <= stack[-1][0]:
            stack.pop()
        kind = stack[-1][1] if stack else "top"
        h = HEAD.match(line)
        if h and h[3] == "module":
            stack.append((ind, "section" if kind in ("top", "section") else "local"))
            # a module's parameters may be on further lines
            continue
        if h and h[3] == "mutual":
            stack.append((ind, kind if kind != "top" else "section"))
            continue
        m = DECL.match(line)
        if not m and h and h[3] in ("record", "data"):
            # the header goes on below
            m = re.match(rf"^( *)((?:(?:pub|abbrev|unfoldable) )*)((?:record|data) )({W})()", line)
        if m and not re.match(r"^ *(let|λ|in|elim|rw|open|use|mod|infix\w?) ", line):
            sig = [line[m.end():]]
            for more in code[k + 1:]:
                if more.strip() and len(more) - len(more.lstrip()) <= ind:
                    break
                sig.append(more)
            if (m[3] or "").strip() in ("record", "data"):
                cls = "type"
                sig = sig[:1]
            elif kind == "record":
                cls = "field"
            elif kind == "data":
                cls = "ctor"
            elif kind == "local":
                cls = "local"
            else:
                cls = "def" if is_spec else "lemma"
            names = m[4].split(" ")
            ok = all(re.fullmatch(W, n) and n not in KEYWORDS and n not in ("→", "×", "=", ":", "|", "≡") for n in names)
            if ok and (len(names) == 1 or cls in ("ctor", "field", "local")):
                for n in names:
                    out.append(Decl(path, n, cls, k + 1, " ".join(sig), m[2], m[5], "pub" in m[2]))
        if h and h[3] in ("record", "data"):
            stack.append((ind, h[3]))
        elif re.search(r"(^|\s)where\s*$", line):
            # a where of a definition, or the end of a section's telescope
            if not (stack and stack[-1][1] in ("section", "record", "data") and is_tail(code, k)):
                stack.append((ind, "local"))
        elif m and stack and False:
            pass
    return out


def is_tail(code, k):
    """Does line k end a header 'module .. where' or 'record .. where' that began above?"""
    ind = len(code[k]) - len(code[k].lstrip())
    for j in range(k - 1, -1, -1):
        if not code[j].strip():
            return False
        i = len(code[j]) - len(code[j].lstrip())
        if i < ind:
            h = HEAD.match(code[j])
            return bool(h and not re.search(r"\bwhere\s*$", code[j]))
        if re.search(r"\bwhere\s*$", code[j]):
            return False
    return False


class Repo:
    def __init__(self, root):
        self.root = root
        self.crates = sorted(c for c in os.listdir(f"{root}/crates") if os.path.isdir(f"{root}/crates/{c}/src"))
        self.antt, self.fn, self.rt, self.edits = {}, {}, {}, {}
        self.functions = collections.defaultdict(set)
        for c in self.crates:
            base = f"crates/{c}"
            for top in ("specs", "proofs"):
                for d, ds, fs in os.walk(f"{root}/{base}/{top}"):
                    for f in sorted(fs):
                        if f.endswith(".antt"):
                            p = os.path.relpath(os.path.join(d, f), root)
                            text = open(f"{root}/{p}", encoding="utf-8").read()
                            if f in ("Proof.antt", "Answers.antt", "Invariants.antt", "Given.antt") and top == "proofs" and d != f"{root}/{base}/proofs":
                                self.fn[p] = text
                                self.functions[c].add(os.path.basename(d).lstrip("+"))
                            else:
                                self.antt[p] = text
            for d, ds, fs in os.walk(f"{root}/{base}/src"):
                for f in sorted(fs):
                    if f.endswith(".rt"):
                        p = os.path.relpath(os.path.join(d, f), root)
                        self.rt[p] = open(f"{root}/{p}", encoding="utf-8").read()
            if os.path.isdir(f"{root}/{base}/must-fail"):
                for f in sorted(os.listdir(f"{root}/{base}/must-fail")):
                    if f.endswith(".edit"):
                        self.edits[f"{base}/must-fail/{f}"] = open(f"{root}/{base}/must-fail/{f}", encoding="utf-8").read()
        self.all_news = None
        self.gave_way, self.cache, self.fact_at = [], {}, set()
        self.decls = {p: declarations(p, t, "/specs/" in p) for p, t in self.antt.items()}
        self.module = {}  # module path -> file
        for p in self.antt:
            m = re.fullmatch(r"crates/(\w+)/(specs|proofs)/(.*)\.antt", p)
            self.module[f"Rattle.{m[1]}.{m[2]}.{m[3].replace('/', '.')}"] = p
        self.uses = {p: self.use_lines(code_of(t)) for p, t in {**self.antt, **self.fn}.items()}
        self.uses.update({p: [u for g in GHOST_USE.findall(t) for u in self.use_lines(g)] for p, t in self.rt.items()})

    def use_lines(self, code):
        out = []
        for m in USE.finditer(code):
            items = None
            if m[3] is not None:
                items = []
                for it in m[3].split(","):
                    it = it.strip()
                    if it:
                        a = re.fullmatch(rf"({W}(?:\.{W})*)(?: as «?({W})»?)?", it)
                        items.append((a[1], a[2]) if a else (it, None))
            out.append((m[1], m[2], items, m[4]))
        return out

    def exports(self, p, seen=()):
        """name -> decl, of what a file declares or passes on."""
        out = {}
        for d in self.decls.get(p, ()):
            if d.cls in ("def", "lemma", "type", "ctor") and d.name not in out:
                out[d.name] = d
        for how, path, items, alias in self.uses.get(p, ()):
            if "pub" in how and path in self.module and items and p not in seen:
                inner = self.exports(self.module[path], seen + (p,))
                for a, b in items:
                    if a in inner:
                        out.setdefault(b or a, inner[a])
        return out

    def check_uses(self):
        """Every name of a `use` line of an own module is declared or passed on there."""
        bad = []
        for p in self.uses:
            for how, path, items, alias in self.uses[p]:
                if path in self.module and items:
                    have = self.exports(self.module[path])
                    text = self.antt[self.module[path]]
                    for a, b in items:
                        if a.split(".")[0] not in have and not re.search(rf"(?<![^\s(){{}}.;,]){re.escape(a)}(?![^\s(){{}}.;,])", code_of(text)):
                            bad.append(f"{p}: {path} has no `{a}`")
                        elif a.split(".")[0] not in have:
                            # passed on from elsewhere (a use of a kit's name), or a private or nested one
                            passed = any("pub" in h and any(x == a or y == a for x, y in it or ()) for h, _, it, _ in self.uses[self.module[path]])
                            if not passed:
                                bad.append(f"{p}: {path} has `{a}`, but not as a declaration")
                elif re.match(r"Rattle\.(\w+)\.(specs|proofs)\.", path):
                    c, top = re.match(r"Rattle\.(\w+)\.(specs|proofs)\.", path).groups()
                    if c in self.crates and path.rsplit(".", 1)[0] in self.module and not items:
                        have = self.exports(self.module[path.rsplit(".", 1)[0]])
                        if path.rsplit(".", 1)[1] not in have:
                            bad.append(f"{p}: {path} is no item")
        return bad

    # ---- new names

    def news(self):
        """Old spelling -> the new ones, over the whole repository, older spellings than port.py's included."""
        if self.all_news is None:
            self.all_news = collections.defaultdict(set)
            for ds in self.decls.values():
                for d in ds:
                    if d.cls != "local":
                        self.all_news[d.name].add(d.new)
            for o in TURNED:
                if plain_old(o) in self.all_news:
                    self.all_news[o] |= self.all_news[plain_old(o)]
        return self.all_news

    def names_in(self, p):
        """The own declarations that a file can name bare, and the kit's names that it imports."""
        if p not in self.cache:
            own, kit = {}, set()
            for how, path, items, alias in self.uses.get(p, ()):
                if path in self.module:
                    have = self.exports(self.module[path])
                    for a, b in items or ():
                        if a in have:
                            own[b or a] = have[a]
                else:
                    kit.update(b or a for a, b in items or ())
            for d in self.decls.get(p, ()):
                if d.cls in ("def", "lemma", "type", "ctor"):
                    own[d.name] = d
            self.cache[p] = own, kit
        return self.cache[p]

    def facts(self):
        """Own types that are facts (a function into Type, or a record or data with parameters), and own data types."""
        facts, data = set(FACTS), set()
        for p, ds in self.decls.items():
            for d in ds:
                if d.name[0].isupper() and d.cls in ("type", "def", "lemma"):
                    indented = d.cls != "type" and re.search(r"(?m)^ ", "") or False
                    takes = bool(d.head.strip()) or "→" in d.sig.split(" where")[0].split("\n")[0]
                    # in a section the parameters may stand above
                    section = self.antt[p].split("\n")[d.line - 1].startswith(" ")
                    (facts if takes or section else data).add(d.name)
                    if takes or section:
                        self.fact_at.add((p, d.name))
        return facts, data

    def lemma(self, d, facts):
        base = d.name
        if "_" in base and not wrong(base):
            olds = [o for o in TURNED if plain_old(o) == base]
            if olds:
                base = sorted(olds, key=lambda o: (-o.count("-"), o))[0]
            else:
                return base
        if not wrong(base):
            return base
        if base[0].isupper():
            return base
        if "--no-dash" in sys.argv:
            return plain(base)
        own, kit = self.names_in(d.file)
        words, low = set(), {}
        for t in WORD.findall(d.sig):
            if t in own:
                it = own[t]
                if it.name[0].isupper():
                    if it.name in facts and (it.file, it.name) in self.fact_at:
                        low[t.lower()] = t
                elif it.cls in ("def", "lemma", "ctor"):
                    words.add(plain(t))
            elif t in kit:
                if t in FACTS:
                    low[t.lower()] = t
                elif not t[0].isupper():
                    words.add(t)
            elif t == "Dec":
                low["dec"] = t
        sig = " ".join(WORD.findall(d.sig))
        parts = [p for p in base.split("-") if p] if not base.startswith("-") else None
        if parts is None:
            return plain(base)
        out, kinds, i = [], [], 0
        while i < len(parts):
            for n in range(min(3, len(parts) - i), 0, -1):
                piece = parts[i:i + n]
                s = "_".join(snake(x) for x in piece)
                flat = "".join(piece).lower()
                if flat in low and flat not in SIGNS and (n == 1 or True):
                    out.append(low[flat]); kinds.append("fact"); break
                if s in words and not s.isdigit() and len(s) > 1:
                    out.append(s); kinds.append("name"); break
                if n == 1:
                    sign = SIGNS.get(s)
                    if sign and (sign in sig.split(" ") or f"◌{sign}◌" in sig or sign == "Memᴰ" and "Mem" in sig):
                        out.append(s); kinds.append("name")
                    else:
                        out.append(s); kinds.append("word")
                    break
            i += n
        if len(out) == 1 and kinds[0] == "fact":
            return plain(base).replace("-", "_")
        name = out[0]
        for k in range(1, len(out)):
            two = kinds[k - 1] != "word" and kinds[k] != "word"
            head = k == 1 and kinds[0] == "fact"
            name += ("-" if two or head else "_") + out[k]
        return name

    def respell(self):
        facts, data = self.facts()
        self.spelled = {}
        for ds in self.decls.values():
            for d in ds:
                if d.cls in ("def", "type", "ctor", "field"):
                    self.spelled[d.name] = plain(d.name)
        self.fields, self.all_fields = {}, {}  # those that change; all
        for p, ds in self.decls.items():
            for d in ds:
                hand = HAND.get((p[len("crates/"):], d.name)) or HAND.get(("*", d.name, d.cls))
                if hand:
                    d.new = hand
                elif d.cls == "lemma":
                    d.new = self.lemma(d, facts)
                else:
                    d.new = plain(d.name)
                if d.cls == "field":
                    self.all_fields[d.name] = d.new
                if d.cls == "field" and d.new != d.name:
                    self.fields[d.name] = d.new
        # one lemma, one name: several declarations of one name in one file go together
        for p, ds in self.decls.items():
            first = {}
            for d in sorted(ds, key=lambda d: {"def": 0, "lemma": 0, "type": 0, "ctor": 1, "field": 2, "local": 3}[d.cls]):
                if d.name in first and first[d.name].new != d.new and d.cls != "field":
                    d.new = first[d.name].new
                first.setdefault(d.name, d)

    def table_of(self, p):
        """old -> new for unqualified tokens; own module aliases; the kit's names."""
        t, kit, alias, own_types = {}, set(), {}, {}
        is_fn = p in self.fn
        for d in self.decls.get(p, ()):
            if not (d.cls == "field" and d.name in t):
                t[d.name] = d.new
        made = set()
        if is_fn:
            made = {m[4] for m in map(DECL.match, code_of(self.fn[p]).split("\n")) if m}
        for how, path, items, al in self.uses.get(p, ()):
            if path in self.module:
                have = self.exports(self.module[path])
                if items is None:
                    alias[al or path.rsplit(".", 1)[1]] = self.module[path]
                for a, b in items or ():
                    if a in have:
                        if b is None:
                            t[a] = have[a].new
                        else:
                            t.setdefault(b, plain(b))
            elif path.rsplit(".", 1)[0] in self.module and items is None:
                have = self.exports(self.module[path.rsplit(".", 1)[0]])
                a = path.rsplit(".", 1)[1]
                if a in have and not al:
                    t[a] = have[a].new
            else:
                if items is None:
                    kit.add(al or path.rsplit(".", 1)[1])
                for a, b in items or ():
                    kit.add(b or a)
        f = re.match(r"crates/(\w+)/", p)[1]
        specs = {}
        for c in self.crates:
            for fn in self.functions[c]:
                specs.setdefault(fn.replace("_", "-") + "-spec", fn + "_spec")
                specs.setdefault("+" + fn.replace("_", "-") + "-spec", "+" + fn + "_spec")
        return t, kit, alias, made, specs


def plain_old(name):
    return re.sub(r"(?<=[a-z0-9])[A-Z]", lambda m: "_" + m[0].lower(), name).replace("-", "_")


def realigned(old, new):
    """The later lines of a block stand under its first item again."""
    was, now, lines = code_of(old).split("\n"), code_of(new).split("\n"), new.split("\n")
    by = [0] * len(lines)
    for row, (a, b) in enumerate(zip(was, now)):
        for x, y in zip(BLOCK.finditer(a), BLOCK.finditer(b)) if a != b else ():
            below = row + 1
            while x.end() != y.end() and below < len(was):
                if was[below].strip() and was[below][: x.end()].strip():
                    break
                by[below] += (y.end() - x.end()) * bool(was[below].strip())
                below += 1
    return "\n".join(" " * n + l if n >= 0 else l[-n:] for n, l in zip(by, lines))


class File:
    """Turns the tokens of one file."""

    def __init__(self, repo, p):
        self.repo, self.p = repo, p
        self.t, self.kit, self.alias, self.made, self.specs = repo.table_of(p)
        self.is_fn, self.is_rt = p in repo.fn, p in repo.rt
        self.seen, self.vars = {}, set()  # token -> new, of what stands unqualified

    def one(self, tok):
        if tok in self.seen:
            return self.seen[tok]
        new = tok
        if tok in self.specs and (self.is_fn or tok in self.t):
            new = self.specs[tok]
        elif tok in self.t and not (self.is_fn and tok in self.made):
            new = self.t[tok]
        elif tok in self.kit or (self.is_fn and tok in self.made):
            new = tok
        elif tok in self.repo.fields:
            new = self.repo.fields[tok]
        elif wrong(tok) and not self.is_fn and not self.is_rt and not tok[0].isupper() and tok[0].isalpha():
            new = plain(tok)
            self.vars.add(tok)
        self.seen[tok] = new
        return new

    def chain(self, m):
        text = m[0]
        parts = text.split(".")
        if text[0] == ".":
            return "." + ".".join(self.repo.fields.get(x, x) for x in parts[1:])
        if parts[0] == "Rattle":
            for n in range(len(parts) - 1, 2, -1):
                path = ".".join(parts[:n])
                if path in self.repo.module:
                    have = self.repo.exports(self.repo.module[path])
                    rest = parts[n:]
                    if rest and rest[0] in have:
                        rest[0] = have[rest[0]].new
                    return ".".join(parts[:n] + rest)
            return text
        if len(parts) == 1:
            # a field of a record that is written out: `record { f = a; g = b }`
            if text in self.repo.all_fields and re.match(r"\s*=\s", m.string[m.end():]) and m.string[:m.start()].rstrip()[-1:] in ("{", ";"):
                return self.repo.all_fields[text]
            return self.one(text)
        head = parts[0]
        if head in self.alias:
            have = self.repo.exports(self.repo.module[self.alias[head]]) if self.alias[head] in self.repo.module else self.repo.exports(self.alias[head])
            return ".".join([head] + [have[x].new if x in have else self.repo.fields.get(x, x) for x in parts[1:]])
        if head in self.kit and head not in self.t:
            return text
        first = self.one(head)
        if MADE.match(head) and self.is_fn:
            return ".".join([first] + parts[1:])
        return ".".join([first] + [self.repo.fields.get(x, x) for x in parts[1:]])

    def antt(self, code):
        # a use line's items are of its module
        out, at = [], 0
        for m in USE.finditer(code):
            out.append(CHAIN.sub(self.chain, code[at:m.start()]))
            out.append(self.use(m))
            at = m.end()
        out.append(CHAIN.sub(self.chain, code[at:]))
        return "".join(out)

    def use(self, m):
        path, text = m[2], m[0]
        if path in self.repo.module and m[3] is not None:
            have = self.repo.exports(self.repo.module[path])

            def item(i):
                a = i[1]
                new = have[a].new if a in have else self.t.get(a, a)
                if i[2]:
                    alias = self.one(i[2])
                    return new if alias == new else f"{new} as {alias}"
                return new
            items = re.sub(rf"({W})(?: as «?({W})»?)?", item, m[3])
            s = m.start(3) - m.start()
            return text[:s] + items + text[s + len(m[3]):]
        pre = path.rsplit(".", 1)
        if len(pre) == 2 and pre[0] in self.repo.module and m[3] is None:
            have = self.repo.exports(self.repo.module[pre[0]])
            if pre[1] in have:
                s = m.start(2) - m.start()
                return text[:s] + pre[0] + "." + have[pre[1]].new + text[s + len(path):]
        pm = re.fullmatch(r"Rattle\.\w+\.proofs\..*\.Proof", path)
        if pm and m[3]:
            s = m.start(3) - m.start()
            return text[:s] + WORD.sub(lambda w: self.specs.get(w[0], w[0]), m[3]) + text[s + len(m[3]):]
        return text

    def comment(self, text):
        def word(m):
            w = m[0]
            tail = ""
            while w and w[-1] in ":?!`'" and w not in self.t:
                tail, w = w[-1] + tail, w[:-1]
            if w in self.t and (wrong(w) or self.t[w] != w) and not (self.is_fn and w in self.made):
                return self.t[w] + tail
            if wrong(m[0]) and m[0] not in self.kit and len(self.repo.news().get(m[0], ())) == 1:
                return next(iter(self.repo.news()[m[0]]))
            return m[0]
        span = lambda s: "`" + re.sub(r"[^\s(){}.;,@\"«»`]+", word, s[0][1:-1]) + "`"
        text = SPAN.sub(span, text)
        # a bare word in camel case that the code has
        return re.sub(r"(?<![\w`'-])[a-z]+[A-Z]\w*", lambda m: self.seen.get(m[0]) or (next(iter(self.repo.news()[m[0]])) if len(self.repo.news().get(m[0], ())) == 1 else m[0]), text)

    def turn(self, text):
        out, at = [], 0
        quiet = []
        for m in QUIET.finditer(text):
            out.append(("code", text[at:m.start()]))
            out.append(("quiet", m[0]))
            at = m.end()
        out.append(("code", text[at:]))
        # use lines may not be cut by comments: they are not
        done = [(k, self.antt(t) if k == "code" else t) for k, t in out]
        new = "".join(self.comment(t) if k == "quiet" and t[0] != '"' else t for k, t in done)
        return new

    def rust(self, text):
        parts, at = [], 0
        while at < len(text):
            m = RUST.match(text, at)
            word, end = m[0], m.end()
            clause = CLAUSE.match(text, at) if word in ("requires", "ensures", "ghost", "invariant", "decreases") else None
            use = GHOST_USE.match(text, at) if word == "ghost" else None
            close = clause and closing(text, clause.end())
            using = re.compile(r"using\s*\(").match(text, at) if word == "using" else None
            if close:
                end = close
                parts += [("rust", clause[0]), ("antt", text[clause.end():end])]
            elif use:
                end = use.end()
                parts.append(("antt", use[0]))
            elif using:
                # #[tactic(auto, using(lemma, ..))]
                end = text.index(")", using.end())
                parts += [("rust", using[0]), ("using", text[using.end():end])]
            elif word[:2] in ("//", "/*"):
                parts.append(("comment", word))
            else:
                parts.append(("rust", word))
            at = end
        rust = "".join(t if k == "rust" and not t.startswith('"') else " " for k, t in parts)
        # what a clause can name: parameters, locals, fields, ghost fields
        self.rust_words = set(re.findall(r"\b(\w+)\s*:(?!:)", rust)) | set(re.findall(r"\b(?:let|for)\s+(?:mut\s+)?(\w+)", rust)) | set(re.findall(r"\bghost\s+(\w+)", rust)) | set(re.findall(r"\|\s*&?(\w+)", rust)) | set(re.findall(r"\b(?:const|static)\s+(\w+)", rust))
        crate = re.match(r"crates/(\w+)/", self.p)[1]

        def named(m):
            path = f"Rattle.{crate if m[1] == 'crate' else m[1]}.{m[2]}.{m[3].replace('::', '.')}"
            have = self.repo.exports(self.repo.module[path]) if path in self.repo.module else {}
            new = have[m[4]].new if m[4] in have else m[4]
            if "-" in new:
                print(f"look: {self.p}: using({m[0]}): the lemma is {new} now, which `using` cannot name: put it into a ruleset, or give it a name with no dash in HAND")
            return f"{m[1]}::{m[2]}::{m[3]}::{new}"
        parts = [(k, re.sub(r"(\w+)::(specs|proofs)::((?:\w+::)*?\w+)::(\w+)(?!\w|::)", named, t) if k == "using" else t) for k, t in parts]
        done = [(k, self.turn(t) if k == "antt" else t) for k, t in parts]
        return "".join(self.comment(t) if k == "comment" else t for k, t in done)


def closing(text, at):
    depth = 0
    for m in re.compile(QUIET.pattern + r"|//[^\n]*|[{}]", re.S).finditer(text, at):
        depth += (m[0] == "{") - (m[0] == "}")
        if depth < 0:
            return m.start()
    return None


def main(argv):
    root = subprocess.run(["git", "rev-parse", "--show-toplevel"], capture_output=True, text=True).stdout.strip() or "."
    repo = Repo(root)
    before = repo.check_uses()
    print(f"respell: self-check before: {len(before)} names of own `use` lines are not there")
    for b in before[:40]:
        print("  " + b)
    if "--uses" in argv:
        return bool(before)
    table_file = f"{root}/docs/respelled-table.txt"
    if os.path.exists(table_file):
        print(f"respell: {table_file} is there: this tree is respelled already. Nothing was done")
        return 2
    repo.respell()
    for _ in range(6):
        new_texts, clashes, vars_, files = turned(repo)
        if not give_way(repo, clashes):
            break
    for g in repo.gave_way:
        print(f"_lem: {g[1]}: {g[2]} -> {g[3]}, since {', '.join(g[4])} (in {g[0]})")
    for c in clashes:
        print(f"clash: {c[0]}: {', '.join(c[2])} -> {c[1]}")
    # must-fail edits: the text of a line is text of the .rt file that it names
    edits = {}
    for p, t in repo.edits.items():
        out, rt = [], None
        base = p.split("/must-fail/")[0]
        for line in t.split("\n"):
            m = re.match(r"(file|old|new):( ?)(.*)$", line, re.S)
            if m and m[1] == "file":
                rt = f"{base}/{m[3].strip()}"
            elif m and rt in files:
                f = files[rt]

                def word(w):
                    for tok in (w[0], plain_old(w[0]) if w[0] in TURNED else w[0]):
                        if tok in f.t and not (f.is_fn and tok in f.made):
                            return f.t[tok]
                    if wrong(w[0]) and w[0] not in f.made and w[0] not in f.kit and not re.search(r"-\d+$", w[0]) and len(repo.news().get(w[0], ())) == 1:
                        return next(iter(repo.news()[w[0]]))
                    return w[0]
                body = WORD.sub(word, m[3])
                line = f"{m[1]}:{m[2]}{body}"
            out.append(line)
        if "\n".join(out) != t:
            edits[p] = "\n".join(out)
    rows = sorted({(d.name, d.new, d.cls, p[len("crates/"):]) for p, ds in repo.decls.items() for d in ds if d.new != d.name and d.cls != "local"})
    locals_ = sorted({(d.name, d.new) for ds in repo.decls.values() for d in ds if d.new != d.name and d.cls == "local"} | {(v, plain(v)) for v in vars_})
    print(f"respell: {len(rows)} names at their definitions, {len(locals_)} spellings of local facts and variables; {sum(a != b for a, b in new_texts.values())} files, {len(edits)} edits")
    if clashes:
        print(f"respell: {len(clashes)} clashes: nothing is written. Put a row into HAND")
    if "--check" in argv or clashes:
        with open(os.path.join(__import__("tempfile").gettempdir(), "respell-rows.txt"), "w") as o:
            for r in rows:
                o.write("\t".join(r) + "\n")
            for a, b in locals_:
                o.write(f"{a}\t{b}\tlocal\n")
        return bool(clashes)
    for p, (a, b) in new_texts.items():
        if a != b:
            open(f"{root}/{p}", "w", encoding="utf-8").write(b)
    for p, b in edits.items():
        open(f"{root}/{p}", "w", encoding="utf-8").write(b)
    if "--docs" in argv:
        docs(root, repo, rows)
    os.makedirs(f"{root}/docs", exist_ok=True)
    with open(table_file, "w", encoding="utf-8") as o:
        o.write("Names that were respelled: old, new, kind, where it is declared (below crates/)\n\n")
        for r in rows:
            o.write("\t".join(r) + "\n")
        o.write("\nLocal facts and variables of lemmas: old, new\n\n")
        for a, b in locals_:
            o.write(f"{a}\t{b}\n")
    after = Repo(root).check_uses()
    print(f"respell: self-check after: {len(after)} names of own `use` lines are not there")
    for b in after[:40]:
        print("  " + b)
    return 0 if len(after) <= len(before) else 1


def turned(repo):
    """The new texts, the names that meet, and the variables."""
    new_texts, clashes, vars_, files = {}, [], collections.Counter(), {}
    for p in list(repo.antt) + list(repo.fn) + list(repo.rt):
        f = files[p] = File(repo, p)
        old = repo.antt.get(p) or repo.fn.get(p) or repo.rt.get(p)
        if old is None:
            continue
        if f.is_rt:
            new = f.rust(old)
        else:
            new = realigned(old, f.turn(old))
        new_texts[p] = (old, new)
        for v in f.vars:
            vars_[v] += 1
        # two names of one file that would meet
        by = collections.defaultdict(set)
        for old_tok, new_tok in f.seen.items():
            by[new_tok].add(old_tok)
        for k in f.kit:
            by[k].add(k)
        for a, n in f.t.items():
            by[n].add(a)
        for n, olds in by.items():
            if len(olds) > 1:
                clashes.append((p, n, sorted(olds)))
            elif n in RESERVED and n not in olds:
                clashes.append((p, n, sorted(olds) + ["(a reserved word)"]))
        if f.is_rt:
            for a, n in f.t.items():
                if n != a and n in f.rust_words:
                    clashes.append((p, n, [a, "(a word of this file's Rust)"]))
    # one module: names that meet, or differ only in case
    for p, ds in repo.decls.items():
        by, cased = collections.defaultdict(set), collections.defaultdict(set)
        for d in ds:
            if d.cls in ("def", "lemma", "type", "ctor"):
                by[d.new].add(d.name)
                if d.cls != "ctor":
                    cased[d.new.lower()].add(d.new)
        for n, olds in by.items():
            if len(olds) > 1:
                clashes.append((p, n, sorted(olds) + ["(in one module)"]))
        for n, news in cased.items():
            if len(news) > 1 and any(d.new != d.name for d in ds if d.new in news):
                print(f"look: {p}: {sorted(news)} differ only in case")
    return new_texts, clashes, vars_, files


def give_way(repo, clashes):
    """A lemma that would have the name of another item gets _lem."""
    changed = False
    for p, n, olds in clashes:
        decls = {}
        for d in repo.decls.get(p, ()):
            decls.setdefault(d.name, d)
        for how, path, items, al in repo.uses.get(p, ()):
            if path in repo.module:
                have = repo.exports(repo.module[path])
                for a, b in items or ():
                    if a in have and b is None:
                        decls.setdefault(a, have[a])
        lemmas = [decls[o] for o in olds if o in decls and decls[o].cls == "lemma" and decls[o].new == n]
        others = [o for o in olds if o not in decls or decls[o].cls != "lemma" or decls[o].new != n]
        # a function among the lemmas of proofs/ keeps its name: it is the one whose statement has no equation or fact
        if len(lemmas) == 2 and not others:
            tests = [d for d in lemmas if d.pub and "abbrev" in d.mods or "unfoldable" in d.mods or re.search(r"→ (ℕ|Bool|List [^→]*|\w+)\s*$", d.sig.split("unfolding")[0].split("  ")[0])]
            if len(tests) == 1:
                lemmas.remove(tests[0])
                others = [tests[0].name]
        still = {o for o in olds if o not in decls or decls[o].new == n}
        if len(lemmas) == 1 and others and len(still) > 1:
            lemmas[0].new = lemmas[0].new + "_lem"
            changed = True
            repo.gave_way.append((p, lemmas[0].file, lemmas[0].name, lemmas[0].new, others))
    return changed


def docs(root, repo, rows):
    news = repo.news()
    pages = [f"{root}/README.md"] + [f"{root}/docs/{f}" for f in sorted(os.listdir(f"{root}/docs")) if f.endswith(".md")] if os.path.isdir(f"{root}/docs") else []
    for page in pages:
        if not os.path.exists(page):
            continue
        t = open(page, encoding="utf-8").read()

        def span(m):
            return "`" + re.sub(r"[^\s(){}.;,@\"«»`]+", lambda w: next(iter(news[w[0]])) if wrong(w[0]) and len(news.get(w[0], ())) == 1 else w[0], m[0][1:-1]) + "`"
        n = SPAN.sub(span, t)
        if n != t:
            open(page, "w", encoding="utf-8").write(n)
            print(f"docs: {os.path.relpath(page, root)}")


if __name__ == "__main__":
    sys.exit(main(sys.argv[1:]))
