"""The grammar of queries (profile part A) as a table, and a recogniser that follows Parse:
ordered choice, greedy repetition, and too deep where a Single or Elem is opened while 200 are.
`fits(text)` is None, 'XPST0003' or 'XKLM0004'. `sample(rng)` derives a random text."""
import sys

sys.setrecursionlimit(1000000)

XCHAR = [(9, 10), (13, 13), (0x20, 0xD7FF), (0xE000, 0xFFFD), (0x10000, 0x10FFFF)]
START = [(65, 90), (95, 95), (97, 122), (0xC0, 0xD6), (0xD8, 0xF6), (0xF8, 0x2FF), (0x370, 0x37D),
         (0x37F, 0x1FFF), (0x200C, 0x200D), (0x2070, 0x218F), (0x2C00, 0x2FEF), (0x3001, 0xD7FF),
         (0xF900, 0xFDCF), (0xFDF0, 0xFFFD), (0x10000, 0xEFFFF)]
MORE = [(45, 46), (48, 57), (0xB7, 0xB7), (0x300, 0x36F), (0x203F, 0x2040)]


def within(c, ranges):
    n = ord(c)
    for a, b in ranges:
        if a <= n <= b:
            return True
    return False


def is_char(c):
    return within(c, XCHAR)


def is_start(c):
    return within(c, START)


def is_name(c):
    return within(c, START) or within(c, MORE)


GRAMMAR = r'''
Query  <- S (Decl S ";" S)* Expr S !Any
Decl   <- k"declare" k"namespace" NCName S "=" S String
        / k"declare" k"default" k"element" k"namespace" String
Expr   <- Single (S "," S Single)*
Single <- Flwor / Quant / If / Insert / Delete / Replace / Rename / Or
Flwor  <- ((For / Let) S)+ (k"where" Single S)? (Order S)? k"return" Single
For    <- k"for" ForVar (S "," S ForVar)*
ForVar <- Var (S k"at" Var)? S k"in" Single
Let    <- k"let" LetVar (S "," S LetVar)*
LetVar <- Var S ":=" S Single
Order  <- k"stable"? k"order" k"by" Spec (S "," S Spec)*
Spec   <- Single (S (k"ascending" / k"descending"))? (S k"empty" (k"greatest" / k"least"))?
Quant  <- (k"some" / k"every") QVar (S "," S QVar)* S k"satisfies" Single
QVar   <- Var S k"in" Single
If     <- k"if" "(" S Expr S ")" S k"then" Single S k"else" Single
Insert <- k"insert" Nodes Single S Place Single
Nodes  <- k"nodes" / k"node"
Place  <- (k"as" (k"first" / k"last"))? k"into" / k"before" / k"after"
Delete <- k"delete" Nodes Single
Replace <- k"replace" (k"value" k"of")? k"node" Single S k"with" Single
Rename <- k"rename" k"node" Single S k"as" Single
Or     <- And (S k"or" And)*
And    <- Comp (S k"and" Comp)*
Comp   <- Range (S CompOp S Range)?
CompOp <- "!=" / "<<" / "<=" / "<" / ">>" / ">=" / ">" / "=" / k"eq" / k"ne" / k"lt" / k"le" / k"gt" / k"ge" / k"is"
Range  <- Add (S k"to" Add)?
Add    <- Mul (S ("+" / "-") S Mul)*
Mul    <- Union (S ("*" / k"div" / k"idiv" / k"mod") S Union)*
Union  <- Inter (S ("|" / k"union") S Inter)*
Inter  <- Unary (S (k"intersect" / k"except") Unary)*
Unary  <- (("+" / "-") S)* Path
Path   <- "//" S Rel / "/" (S Rel)? / Rel
Rel    <- Step (S ("//" / "/") S Step)*
Step   <- (Primary / Axis) (S "[" S Expr S "]")*
Axis   <- ".." / AxisName S "::" S Test / "@" S Test / Test
Test   <- Kind / "*:" NCName / "*" / NCName ":*" / QName
Kind   <- ("node" / "text" / "comment" / "document-node") S "(" S ")"
        / "processing-instruction" S "(" S (NCName / String)? S ")"
        / ("element" / "attribute") S "(" S (QName / "*")? S ")"
Primary <- Number / String / Var / "(" S ")" / "(" S Expr S ")" / "." !"." / Direct / Computed / Call
Call   <- !Reserved QName S "(" S (Single (S "," S Single)*)? S ")"
Computed <- (k"element" / k"attribute") (QName / "{" S Expr S "}") S Body
        / k"processing-instruction" (NCName / "{" S Expr S "}") S Body
        / (k"text" / k"comment" / k"document") "{" S Expr S "}"
Body   <- "{" S Expr? S "}"
Direct <- Elem / "<!--" (!"--" Any)* "-->" / DirectPi
DirectPi <- "<?" PiName (Ws (!"?>" Any)*)? "?>"
Content <- Direct / "<![CDATA[" (!"]]>" Any)* "]]>" / "{{" / "}}" / "{" S Expr S "}" / Ref / !"<" !"{" !"}" !"&" Any
Quoted <- '"' ('""' / "{{" / "}}" / "{" S Expr S "}" / Ref / !'"' !"<" !"{" !"}" !"&" Any)* '"'
        / "'" ("''" / "{{" / "}}" / "{" S Expr S "}" / Ref / !"'" !"<" !"{" !"}" !"&" Any)* "'"
String <- '"' ('""' / Ref / !'"' !"&" Any)* '"' / "'" ("''" / Ref / !"'" !"&" Any)* "'"
Ref    <- "&" ("lt" / "gt" / "amp" / "quot" / "apos") ";" / "&#" Digit+ ";" / "&#x" HexDigit+ ";"
Number <- ("." Digit+ / Digit+ ("." Digit*)?) (("e" / "E") ("+" / "-")? Digit+)? !NameStart
Var    <- "$" S QName
QName  <- NCName (":" NCName)?
S      <- (Ws / Comment)*
Ws     <- WsChar+
Comment <- "(:" (Comment / !":)" Any)* ":)"
'''
# Elem, Attrs, PiName, AxisName, Reserved and the classes of characters are written by hand below.

AXES = ["child", "descendant", "attribute", "self", "descendant-or-self", "following-sibling", "following",
        "parent", "ancestor", "preceding-sibling", "preceding", "ancestor-or-self"]
RESERVED = ["attribute", "comment", "document-node", "element", "empty-sequence", "if", "item", "node",
            "processing-instruction", "schema-attribute", "schema-element", "text", "typeswitch"]


class TooDeep(Exception):
    pass


# ---- reading the table

def tokens(text):
    out, i = [], 0
    while i < len(text):
        c = text[i]
        if c.isspace():
            i += 1
        elif text.startswith("<-", i):
            out.append(("op", "<-"))
            i += 2
        elif c in "\"'" or (c == "k" and text[i + 1] == '"'):
            key = c == "k"
            if key:
                i += 1
            e = text.index(text[i], i + 1)
            out.append(("key" if key else "lit", text[i + 1:e]))
            i = e + 1
        elif c.isalpha():
            e = i
            while e < len(text) and text[e].isalnum():
                e += 1
            out.append(("name", text[i:e]))
            i = e
        else:
            out.append(("op", c))
            i += 1
    return out


def table():
    toks = tokens(GRAMMAR) + [("end", "")]
    rules, p = {}, 0

    def choice(p):
        alts = []
        while True:
            seq = []
            while True:
                kind, val = toks[p]
                if kind == "op" and val == "!":
                    item, p = atom(p + 1)
                    seq.append(("not", item))
                    continue
                if kind in ("lit", "key") or (kind == "name" and toks[p + 1] != ("op", "<-")) or (kind, val) == ("op", "("):
                    item, p = atom(p)
                    while toks[p] in (("op", "*"), ("op", "+"), ("op", "?")):
                        item = (toks[p][1], item)
                        p += 1
                    seq.append(item)
                    continue
                break
            alts.append(("seq", seq))
            if toks[p] == ("op", "/"):
                p += 1
                continue
            return ("alt", alts), p

    def atom(p):
        kind, val = toks[p]
        if (kind, val) == ("op", "("):
            item, p = choice(p + 1)
            assert toks[p] == ("op", ")"), toks[p]
            return item, p + 1
        return (kind, val), p + 1

    while toks[p][0] != "end":
        name = toks[p][1]
        assert toks[p + 1] == ("op", "<-"), toks[p:p + 3]
        rules[name], p = choice(p + 2)
    return rules


TABLE = table()


class Reader:
    """One reading of one text; every rule is a function from a place to a place or -1."""

    def take(self, text):
        self.t = text
        self.n = len(text)
        self.open = 0
        self.trail = []          # the places of the constructors that fit so far
        return self

    def __init__(self):
        self.take("")
        self.rules = {}
        for name in TABLE:
            self.rules[name] = self.build(TABLE[name])
        single = self.rules["Single"]

        def counted(f):
            def run(p):
                if self.open >= 200:
                    raise TooDeep()
                self.open += 1
                q = f(p)
                self.open -= 1
                return q
            return run

        self.rules["Single"] = counted(single)
        self.rules["Elem"] = counted(self.elem)
        for name in ("Direct", "Computed"):
            self.rules[name] = self.marked(self.rules[name])
        self.rules["Quoted"] = self.plain_quoted(self.rules["Quoted"])
        self.rules["PiName"] = self.pi_name
        self.rules["AxisName"] = self.axis_name
        self.rules["Reserved"] = self.reserved
        self.rules["NCName"] = self.ncname
        self.rules["NameStart"] = lambda p: p + 1 if p < self.n and is_start(self.t[p]) else -1
        self.rules["Any"] = lambda p: p + 1 if p < self.n and is_char(self.t[p]) else -1
        self.rules["WsChar"] = lambda p: p + 1 if p < self.n and self.t[p] in " \t\r\n" else -1
        self.rules["Digit"] = lambda p: p + 1 if p < self.n and self.t[p] in "0123456789" else -1
        self.rules["HexDigit"] = lambda p: p + 1 if p < self.n and self.t[p] in "0123456789abcdefABCDEF" else -1

    def build(self, node):
        kind, val = node
        if kind == "lit":
            def lit(p):
                return p + len(val) if self.t.startswith(val, p) else -1
            return lit
        if kind == "key":
            def key(p):
                if not self.t.startswith(val, p):
                    return -1
                q = p + len(val)
                if q < self.n and is_name(self.t[q]):
                    return -1
                return self.rules["S"](q)
            return key
        if kind == "name":
            def name(p):
                return self.rules[val](p)
            return name
        if kind == "seq":
            parts = [self.build(x) for x in val]
            if len(parts) == 1:
                return parts[0]

            def seq(p):
                mark = len(self.trail)
                for f in parts:
                    p = f(p)
                    if p < 0:
                        del self.trail[mark:]
                        return -1
                return p
            return seq
        if kind == "alt":
            parts = [self.build(x) for x in val]
            if len(parts) == 1:
                return parts[0]

            def alt(p):
                for f in parts:
                    q = f(p)
                    if q >= 0:
                        return q
                return -1
            return alt
        f = self.build(val)
        if kind == "not":
            def no(p):
                mark = len(self.trail)
                q = f(p)
                del self.trail[mark:]
                return p if q < 0 else -1
            return no
        if kind == "?":
            def maybe(p):
                q = f(p)
                return q if q >= 0 else p
            return maybe

        def many(p):
            count = 0
            while True:
                q = f(p)
                if q < 0:
                    break
                assert q > p
                p = q
                count += 1
            return p if count or kind == "*" else -1
        return many

    def marked(self, f):
        def run(p):
            q = f(p)
            if q >= 0:
                self.trail.append(p)
            return q
        return run

    def plain_quoted(self, f):
        def run(p):
            mark = len(self.trail)
            q = f(p)
            if len(self.trail) > mark:
                del self.trail[mark:]
                return -1
            return q
        return run

    def ncname(self, p):
        if p >= self.n or not is_start(self.t[p]):
            return -1
        p += 1
        while p < self.n and is_name(self.t[p]):
            p += 1
        return p

    def pi_name(self, p):
        q = self.ncname(p)
        if q >= 0 and self.t[p:q] in ("xml", "xmL", "xMl", "xML", "Xml", "XmL", "XMl", "XML"):
            return -1
        return q

    def axis_name(self, p):
        best = -1
        for a in AXES:
            if self.t.startswith(a, p):
                best = max(best, p + len(a))
        return best

    def reserved(self, p):
        for a in RESERVED:
            q = p + len(a)
            if self.t.startswith(a, p) and not (q < self.n and is_name(self.t[q])):
                return q
        return -1

    def elem(self, p):
        """Elem  <- "<" QName Attrs ("/>" / ">" Content* "</" QName Ws? ">")
        Attrs <- (Ws (QName Ws? "=" Ws? Quoted)?)*"""
        t, r = self.t, self.rules
        mark = len(self.trail)

        def no():
            del self.trail[mark:]
            return -1
        if not t.startswith("<", p):
            return -1
        a = p + 1
        q = r["QName"](a)
        if q < 0:
            return -1
        tag = t[a:q]
        while True:
            w = r["Ws"](q)
            if w < 0:
                break
            q = w
            m = len(self.trail)
            e = r["QName"](q)
            if e >= 0:
                w = r["Ws"](e)
                e = w if w >= 0 else e
                if t.startswith("=", e):
                    e += 1
                    w = r["Ws"](e)
                    e = w if w >= 0 else e
                    e = r["Quoted"](e)
                    if e >= 0:
                        q = e
                        continue
            del self.trail[m:]
        if t.startswith("/>", q):
            return q + 2
        if not t.startswith(">", q):
            return no()
        q += 1
        while True:
            e = r["Content"](q)
            if e < 0:
                break
            q = e
        if not t.startswith("</", q):
            return no()
        e = r["QName"](q + 2)
        if e < 0 or t[q + 2:e] != tag:
            return no()
        w = r["Ws"](e)
        e = w if w >= 0 else e
        return e + 1 if t.startswith(">", e) else no()


READER = Reader()


def fits(text):
    reader = READER.take(text)
    try:
        end = reader.rules["Query"](0)
    except TooDeep:
        return "XKLM0004"
    if end < 0 or end != len(text):
        return "XPST0003"
    return None


# ---- random derivations, to be read by both programs

WORDS = ["a", "b", "n", "x", "div", "for", "if", "text", "node", "element", "return", "order", "to", "is", "k", "child",
         "self", "insert", "or", "xml", "é", "a-b", "a.1"]


def sample(rng, rule="Query", depth=10):
    def name():
        return rng.choice(WORDS)

    def gap():
        return rng.choice(["", "", "", " ", " ", "(::)", "(: x :)", "\t", " (:(: :):) "])

    def go(node, d):
        kind, val = node
        if kind == "lit":
            return val
        if kind == "key":
            return "\0" + val + rng.choice([" ", " ", " ", "\t", "(::)", "  "])
        if kind == "seq":
            return "".join(go(x, d) for x in val)
        if kind == "alt":
            if d <= 0:
                return go(val[-1] if rng.random() < 0.7 else rng.choice(val), d)
            return go(rng.choice(val), d)
        if kind == "not":
            return ""
        if kind in "?*+":
            lo = 1 if kind == "+" else 0
            hi = 1 if kind == "?" else 2
            count = lo if d <= 0 or rng.random() < 0.6 else rng.randint(lo, hi)
            return "".join(go(val, d - 1) for _ in range(count))
        return named(val, d)

    def named(val, d):
        if d <= -6 and val in ("Expr", "Single", "Or", "Path", "Rel", "Step", "Primary", "Elem", "Direct", "Computed", "Call"):
            return rng.choice(["1", "a", '"s"', ".", "@k", "$v", "<a/>"]) if val not in ("Elem", "Direct") else "<a/>"
        if val == "S":
            return gap()
        if val in ("NCName", "PiName"):
            return name()
        if val == "QName":
            return name() if rng.random() < 0.8 else name() + ":" + name()
        if val == "AxisName":
            return rng.choice(AXES)
        if val in ("Reserved", "NameStart"):
            return ""
        if val == "Any":
            return rng.choice("abz 1-]?é&<{\"'")
        if val == "WsChar":
            return rng.choice(" \t ")
        if val == "Digit":
            return rng.choice("0123456789")
        if val == "HexDigit":
            return rng.choice("0123456789aF")
        if val == "Elem":
            tag = named("QName", d)
            atts = "".join(" " + named("QName", d) + rng.choice(["=", " ="]) + named("Quoted", d - 3)
                           for _ in range(rng.choice([0, 0, 1, 2])))
            if rng.random() < 0.4:
                return "<" + tag + atts + "/>"
            body = "".join(named("Content", d - 3) for _ in range(rng.choice([0, 1, 1, 2, 3])))
            return "<" + tag + atts + ">" + body + "</" + (tag if rng.random() < 0.97 else name()) + ">"
        if val == "Single" and (d <= 0 or rng.random() < 0.7):
            return named("Or", d - 1)
        if val == "Or" and rng.random() < 0.6:
            return named("Unary", d - 1)
        if val == "Comp" and rng.random() < 0.3:
            return named("Unary", d - 1)
        if val == "Number":
            return rng.choice(["1", "0", "1.5", ".5", "1.", "2e3", "1E-2", "007"])
        if val == "String":
            return rng.choice(['"s"', "'t'", '""', "''", '"a""b"', "'it''s'", '"&lt;"', "'&#65;'", '"&#0;"'])
        return go(TABLE[val], d - 1)

    text, out = named(rule, depth), []
    for i, c in enumerate(text):
        if c != "\0":
            out.append(c)
        elif out and is_name(out[-1]) and rng.random() < 0.97:
            out.append(" ")
    return "".join(out)
