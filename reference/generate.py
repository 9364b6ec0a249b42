"""Random documents, queries and scripts for compare.py."""
import re

import peg

XML_URI = "http://www.w3.org/XML/1998/namespace"
XMLNS_URI = "http://www.w3.org/2000/xmlns/"
# how a uri is written between quotation marks of either kind
URIS = ["u", "u", "v", "v", "w", "http://x/y", "a&amp;b", "&#x75;", "u v", " u", "u\\v", "&lt;u&gt;", "&quot;", "&#9;t", "u&#10;",
        "&#13;", "é", "U", "u>", "\U0001F600", "&apos;", "x\ty"]
PLAIN_URIS = ["u", "u", "u", "v", "v", "w"]
LOCALS = ["a", "a", "a", "b", "b", "c", "d", "e", "n", "text", "for", "é", "a.b", "a-1", "_", "xmlns", "element", "xml"]
PREFIXES = ["p", "p", "q", "q", "r", "s", "xsi"]
TARGETS = ["t", "s", "xml-s", "a", "xm", "_x", "é", "xmlx"]
PIECES = ["x", "y", "text", " ", "  ", "\t", "1", "é", "\U0001F600", "&lt;", "&gt;", "&amp;", "&quot;", "&apos;", "&#65;", "&#x41;",
          "&#13;", "&#10;", "&#9;", "&#32;", "]]", "]", ">", "\"", "'", "\\", "\\n", "&#xD7FF;", "&#x10FFFF;", "\x85", "\u2028",
          "]]&gt;", "{", "}", "--", "?>", "/>", "=", ":", "\ufeff", "&#0065;", "&#x00041;", "\x7f"]
BREAKS = ["\r", "\r", "\r\n", "\n", "\n\r", "\r\r\n", "\n\n"]


class Docs:
    """Texts of documents. lines: the text is for a command line, so it has no LF."""

    def __init__(self, rng, lines):
        self.r = rng
        self.lines = lines
        self.left = rng.choice([4, 8, 8, 16, 16, 30, 60])
        k = rng.random()
        self.wild = 2 if k < 0.1 else 1 if k < 0.28 else 0   # 1: faults of names and references, 2: others too
        self.uris = PLAIN_URIS if rng.random() < 0.5 else URIS

    def brk(self):
        return "\r" if self.lines else self.r.choice(BREAKS)

    def ws(self):
        r = self.r.random()
        if r < 0.85:
            return " "
        return self.r.choice(["  ", "\t", self.brk(), " " + self.brk() + " "])

    def ows(self):
        return self.ws() if self.r.random() < 0.12 else ""

    def text(self, most=4):
        out = []
        for _ in range(self.r.randint(1, most)):
            if self.r.random() < 0.12:
                out.append(self.brk())
            elif self.wild and self.r.random() < 0.05:
                out.append(self.r.choice(["&x;", "&nbsp;", "&é;", "&lT;", "&xml;", "&a-1.b;"] if self.wild == 1 else ["&x;", "&nbsp;", "&é;", "&lt", "&#0;", "&#xFFFE;", "&a:b;", "&#X41;", "&;", "& ", "&#;", "&#x;",
                                          "&#55296;", "&#1114112;", "&#99999999999999999999;", "\x01", "\ufffe", "&lT;"]))
            else:
                out.append(self.r.choice(PIECES))
        return "".join(out).replace("]]>", "]] >")

    def value(self, given=None):
        v = given if given is not None else (self.text(3) if self.r.random() < 0.85 else "")
        v = v.replace("<", "")
        q = self.r.choice("\"\"\"'")
        return q + v.replace(q, {'"': "&quot;", "'": "&#39;"}[q]) + q

    def comment(self):
        v = self.text(2).replace("-", "_") if self.r.random() < 0.8 else self.r.choice(["", " ", "a-b", "-a", "&x;", "<a>", "]]>", "%"])
        return "<!--" + v + "-->"

    def pi(self):
        t = self.r.choice(TARGETS)
        if self.r.random() < 0.3:
            return "<?" + t + (self.ws() if self.r.random() < 0.4 else "") + "?>"
        v = self.r.choice(["v", "a b ", "<x>", "&x;", "??", "? >", "v" + self.brk() + "w", "--", "version='1'", "\\", " \t z"])
        return "<?" + t + self.ws() + v + "?>"

    def attribute(self, scope):
        r = self.r.random()
        if r < 0.6:
            name = self.r.choice([l for l in LOCALS if l != "xmlns"] + ["k", "k", "k"])
        elif r < 0.72:
            name = "xml:" + self.r.choice(["lang", "space", "id", "a"])
        else:
            bound = [p for p in scope if p]
            if bound and self.r.random() < 0.97:
                name = self.r.choice(bound) + ":" + self.r.choice(["k", "k", "l", "a", "xmlns"])
            elif self.wild:
                name = self.r.choice(PREFIXES) + ":k"
            else:
                name = "k2"
        return name

    def element(self, depth, scope):
        r = self.r
        self.left -= 1
        scope = dict(scope)
        atts = []                            # (name, written value), declarations too
        chance = 0.5 if depth == 0 else 0.3
        if r.random() < chance:
            for _ in range(r.choice([1, 1, 1, 2, 2, 3])):
                k = r.random()
                if k < 0.3:
                    u = r.choice(self.uris + ["", ""] + ([scope[""]] * 3 if scope.get("") else []))
                    scope[""] = u
                    atts.append(("xmlns", u))
                elif k < 0.36:
                    atts.append(("xmlns:xml", XML_URI))
                elif k < 0.96 or not self.wild:
                    p = r.choice(PREFIXES + [x for x in scope if x])
                    u = scope[p] if p in scope and r.random() < 0.3 else r.choice(self.uris)
                    scope[p] = u
                    atts.append(("xmlns:" + p, u))
                else:
                    atts.append(r.choice([("xmlns:p", ""), ("xmlns:xmlns", "u"), ("xmlns:xmlns", XMLNS_URI), ("xmlns:xml", "u"),
                                          ("xmlns:xml", ""), ("xmlns:p", XML_URI), ("xmlns", XML_URI), ("xmlns", XMLNS_URI),
                                          ("xmlns:q", XMLNS_URI), ("xmlns:p", "&x;"), ("xmlns:xsi", "&x;"), ("xmlns", "&x;")]))
        for _ in range(r.choice([0, 0, 1, 1, 2, 3])):
            atts.append((self.attribute(scope), None))
        seen, uris, kept = set(), set(), []
        for name, u in atts:
            plain = name != "xmlns" and not name.startswith("xmlns:")
            key = (scope.get(name.split(":")[0]), name.split(":")[1]) if plain and ":" in name and not name.startswith("xml:") else None
            if (name in seen and not (self.wild == 2 and r.random() < 0.2)) or (key in uris and not (self.wild and r.random() < 0.3)):
                continue
            seen.add(name)
            if key:
                uris.add(key)
            kept.append((name, u))
        r.shuffle(kept)
        # a declaration that wasn't kept doesn't bind
        bound = [p for p in scope if p]
        k = r.random()
        if k < 0.55 or not bound:
            name = r.choice(LOCALS)
        elif k < 0.58:
            name = "xml:" + r.choice(LOCALS)
        elif self.wild and k < 0.6:
            name = r.choice(PREFIXES + ["xmlns"]) + ":" + r.choice(LOCALS)
        else:
            name = r.choice(bound) + ":" + r.choice(LOCALS)
        tag = "<" + name
        for n, u in kept:
            tag += self.ws() + n + self.ows() + "=" + self.ows() + self.value(u)
        tag += self.ows()
        if depth > 9 or self.left <= 0 or r.random() < 0.25:
            return tag + "/>"
        body = ""
        for _ in range(r.choice([0, 1, 1, 2, 2, 3, 4, 6])):
            k = r.random()
            if k < 0.42 and self.left > 0:
                body += self.element(depth + 1, scope)
            elif k < 0.72:
                body += self.text()
            elif k < 0.8:
                body += "<![CDATA[" + r.choice(["", "x", "<", "&lt;", "]]", "]", "a" + self.brk(), "<b>", " ", ">", "é"]) + "]]>"
            elif k < 0.9:
                body += self.comment()
            else:
                body += self.pi()
        return tag + ">" + body + "</" + name + self.ows() + ">"

    def misc(self):
        out = ""
        for _ in range(self.r.choice([0, 0, 0, 1, 2])):
            out += self.r.choice([self.comment, self.pi, self.brk, lambda: " "])()
        return out

    def decl(self):
        r = self.r

        def q(v):
            c = r.choice("\"'")
            return c + v + c
        ver = r.choice(["1.0"] * 8 + ["1.1", "1.23", "1.00"] + (["2.0", "1.", "1", "1.0 ", ""] if self.wild == 2 else []))
        out = "<?xml" + self.ws() + "version" + self.ows() + "=" + self.ows() + q(ver)
        if r.random() < 0.45:
            enc = r.choice(["UTF-8"] * 7 + ["utf-8", "Utf-8", "uTF-8"] + ["UTF8", "ISO-8859-1", "UTF-16", "x", "utf_8"]
                           + (["8", "", "UTF-8 ", "é"] if self.wild == 2 else []))
            out += self.ws() + "encoding" + self.ows() + "=" + self.ows() + q(enc)
        if r.random() < 0.25:
            out += self.ws() + "standalone" + self.ows() + "=" + self.ows() + q(r.choice(["yes", "no"] + (["maybe", "YES"] if self.wild == 2 else [])))
        return out + self.ows() + "?>"

    def doctype(self):
        r = self.r
        out = "<!DOCTYPE" + self.ws() + r.choice(["a", "a", "p:a", "xml", "b.c"])
        k = r.random()
        if k < 0.35:
            out += self.ws() + "SYSTEM" + self.ws() + r.choice(["\"a.dtd\"", "'a.dtd'", "\"\"", "'<&>'", "\"it's [x]\"", "'é'"])
        elif k < 0.6:
            out += self.ws() + "PUBLIC" + self.ws() + r.choice(["\"-//X//Y\"", "'p q'", "\"it's\"", "''", "'%,./:=?;!*#@$_()+'"]) \
                + self.ws() + r.choice(["\"s\"", "''", "'a\"b'"])
        if r.random() < 0.1:
            return out + self.ows() + r.choice(["[]>", "[<!ENTITY x \"y\">]>", "[", "[]", "[\x01]>", "[ &"])
        return out + self.ows() + ">"

    def document(self):
        r = self.r
        out = ""
        if r.random() < 0.3:
            out += self.decl()
        elif self.lines is False and r.random() < 0.05:
            out += " "
        out += self.misc()
        if r.random() < 0.2:
            out += self.doctype() + self.misc()
        out += self.element(0, {}) + self.misc()
        return out


SPICE = ["<", ">", "&", "\"", "'", ";", ":", "=", "/", "!", "?", "-", "]", "[", " ", "\r", "\t", "\x01", "\ufffe", "\x85", "1", "a",
         "x", "xml", "xmlns", "p:", "]]>", "--", "-->", "?>", "<?", "<!", "</", "/>", "&#", "&#x", "&x;", "<a>", "</a>", "<a/>",
         "<!--", "<![CDATA[", "<!DOCTYPE a>", "<!DOCTYPE a [", "xmlns=\"\"", " xmlns:p=\"u\"", " xmlns:q=\"u\"", " k=\"1\"",
         " p:k=\"1\"", " q:k=\"2\"", "é", "\u0300", "\ufeff", "SYSTEM", "\xb7", "\u037e", "\u2029", "\U000F0000", "<?xml version=\"1.0\"?>",
         "encoding='x'"]


def mutate(rng, text, lines):
    for _ in range(rng.choice([1, 1, 1, 2, 3])):
        n = len(text)
        i = rng.randint(0, n)
        k = rng.random()
        if k < 0.3 and n:
            i = min(i, n - 1)
            text = text[:i] + text[i + rng.choice([1, 1, 1, 2, 5]):]
        elif k < 0.65:
            text = text[:i] + rng.choice(SPICE) + text[i:]
        elif k < 0.75 and n:
            i = min(i, n - 1)
            text = text[:i] + rng.choice(SPICE) + text[i + 1:]
        elif k < 0.82 and n:
            j = min(n, i + rng.randint(1, 20))
            text = text[:j] + text[i:j] + text[j:]
        elif k < 0.9:
            text = text[:i] if i > 0 else text
        elif k < 0.95 and n:
            j = min(n, i + rng.randint(1, 10))
            at = rng.randint(0, n)
            text = text[:at] + text[i:j] + text[at:]
        else:
            i, j = sorted((i, rng.randint(0, n)))
            j = min(j, i + 30)
            text = text[:i] + text[j:]
    return text.replace("\n", "\r") if lines else text


U = XML_URI
PITS = ['<a xmlns:p=""/>', '<a xmlns:xmlns="u"/>', '<xmlns:a/>', '<xmlns:a xmlns:xmlns="u"/>', '<a xmlns:xml="u"/>', '<a xmlns:xml=""/>',
        '<a xmlns:p="%s"/>' % U, '<a xmlns="%s"/>' % U, '<a xmlns="%s"/>' % XMLNS_URI, '<a xmlns:p="%s"/>' % XMLNS_URI,
        '<a xmlns:xml="%s" xml:k="1"/>' % U, '<p:a/>', '<a p:k=""/>', '<a xml:k=""/>', '<xml:a/>', '<a b="1" b="2"/>', '<a xmlns="u" xmlns="u"/>',
        '<a xmlns:p="u" xmlns:p="u"/>', '<a xmlns:p="u" xmlns:q="u" p:k="1" q:k="2"/>', '<a xmlns:p="u" xmlns="u" p:k="1" k="2"/>',
        '<a xmlns:p="&x;" xmlns:q="&x;" p:k="1" q:k="2"/>', '<a xmlns:p="&x;" xmlns:q="&y;" p:k="1" q:k="2"/>', '<a k="&x;" p:l=""/>',
        '<a>&x;<p:b/></a>', '<a><p:b/>&x;</a>', '<a><b k="&x;"/><p:c/></a>', '<a>]]></a>', '<a>]]&gt;</a>', '<a>]]<![CDATA[>]]></a>',
        '<a><![CDATA[]]]]>></a>', '<a>]]<!-- -->></a>', '<a>]<b/>]></a>', '<a k="]]>"/>', '<a k="<"/>', "<a k='>'/>", '<a k=1/>', '<a k/>',
        '<a k="1"l="2"/>', '<a k="1" />', '< a/>', '<a/ >', '<a></ a>', '<a></a >', '<a></b>', '<a></A>', '<a/><b/>', '<a/>x', 'x<a/>', '<a>',
        '</a>', '<a:b:c/>', '<:a/>', '<a:/>', '<a xmlns:="u"/>', '<a><?xml v?></a>', '<?XmL v?><a/>', '<?xml-s?><a/>', '<?a:b?><a/>', '<?a??><a/>',
        '<?a ??><a/>', '<?a   ?><a/>', '<? a?><a/>', '<!-- -- --><a/>', '<!-----><a/>', '<!----><a/>', '<!---a--><a/>', '<!--a---><a/>',
        '<a>&#0;</a>', '<a>&#xD800;</a>', '<a>&#x110000;</a>', '<a>&#x;</a>', '<a>&#X41;</a>', '<a>&#65</a>', '<a>&lt</a>', '<a>&LT;</a>', '<a>& </a>',
        '<a>&p:q;</a>', '<a>\x01</a>', '<a>\ufffe</a>', '<a\xb7/>', '<\xb7a/>', '<!DOCTYPE a><a/>', '<!DOCTYPE a><!DOCTYPE a><a/>',
        '<!DOCTYPE a><!DOCTYPE a [<a/>', '<a/><!DOCTYPE a [', '<a/><!DOCTYPE a>', '<!DOCTYPE a[', '<!DOCTYPE a [', '<!DOCTYPE a SYSTEM [',
        '<!DOCTYPE a SYSTEM "x" [', '<!DOCTYPE a SYSTEM "x"[', '<!DOCTYPE a PUBLIC "x" [', '<!DOCTYPE a PUBLIC "x" "y" [', '<!DOCTYPE a:b[', '<!DOCTYPE a:[',
        '<!DOCTYPE [', '<!DOCTYPE[', '<!-- -- --><!DOCTYPE a [', '<!--\x01--><!DOCTYPE a [', '<!DOCTYPE a [\x01', '<!doctype a><a/>', '<!DOCTYPE a PUBLIC "\t" "s"><a/>',
        '<!DOCTYPE a PUBLIC "p""s"><a/>', '<!DOCTYPE a PUBLIC "<" "s"><a/>', '<!DOCTYPE a SYSTEM "<&>"><a/>', '<!DOCTYPE a SYSTEM"x"><a/>',
        '<?xml version="1.0" encoding="UTF-16"?><a', '<?xml version="1.0" encoding="UTF-16"', '<?xml version="1.0" encoding="8"?><a/>',
        '<?xml encoding="UTF-16"?><a/>', '<?xml version="1.1"?><a/>', '<?xml version="2.0"?><a/>', '<?xml version="1.0"encoding="UTF-16"?><a/>',
        '<?xml version="1.0" standalone="yes" encoding="UTF-16"?><a/>', '<?xml version="1.0" standalone="maybe"?><a/>', ' <?xml version="1.0"?><a/>',
        '<?xml version="1.0" encoding="x"?><!DOCTYPE a [', '<![CDATA[]]><a/>', '<a/>&#32;', '<a><![CDATA[]]></a>', '<a> <![CDATA[]]> </a>', '<a><!----></a>',
        '<a k=""/>', '<a xmlns=""/>', '<a xmlns="u"><b xmlns=""><c xmlns="u"/></b></a>', '<a xmlns="u"><b xmlns="u"/></a>',
        '<p:a xmlns:p="u"><p:b xmlns:p="v"><p:c xmlns:p="u"/></p:b><p:d/></p:a>', '<a xmlns:p="u" xmlns:q="u"><p:b q:k=""/></a>']


def document(rng, lines, good=False):
    if not good and rng.random() < 0.22:
        return rng.choice(PITS)
    d = Docs(rng, lines)
    if good:
        d.wild = False
        return d.document().lstrip(" \t\r")
    text = d.document()
    k = rng.random()
    if k < 0.03:
        # deep and wide
        n = rng.choice([50, 199, 200, 201, 400])
        text = "<a>" * n + "x" + "</a>" * n
    if k > 0.72:
        text = mutate(rng, text, lines)
    if lines:
        text = text.replace("\n", "\r")
        if rng.random() < 0.97:
            text = text.lstrip(" \t\r")
    return text


def file_bytes(rng):
    text = document(rng, False)
    data = text.encode("utf-8")
    k = rng.random()
    if k < 0.12:
        data = b"\xef\xbb\xbf" + data
    elif k < 0.14:
        data = b"\xef\xbb\xbf\xef\xbb\xbf" + data
    elif k < 0.18 and data:
        i = rng.randint(0, len(data) - 1)
        data = data[:i] + rng.choice([b"\xff", b"\xc3", b"\xed\xa0\x80", b"\xc0\x80", b"\xf4\x90\x80\x80", b"\xe2\x82", b"\x80"]) + data[i:]
    elif k < 0.20:
        data = rng.choice([b"", b" ", b"\xef\xbb\xbf", b"\xff", b"<", b"\xfe\xff\0<", b"x"])
    elif k < 0.22:
        data = text.encode("utf-16")
    return data


# ------------------------------------------------------------------ queries

FIXED = ["1 +", "count(/a)", "1", "'s'", "()", "(/a)", "/a[1]", "/p:a", "//p:*", "@p:k", "/a | /b", "/a, /b", "-/a", "/a/(b)",
         "$x", "foo()", "/a/.", ".", "for $x in /a return $x", "delete node /a", "insert node <a/> into /a", "<a/>",
         "element a {}", "declare namespace p = \"u\"; /a", "element(p:a)", "attribute(p:k)", "//", "a//", "/a//", "/a/", "a b", "/a b", "///a",
         "/a/@", "@", "::a", "child::", "foo::a", "namespace::a", "/a]", "/a[", "(: x", "/a (: x", "(: (: :)/a", "(:(:)/a", "/a(:(: :):)/b",
         "(:)", "(::)/a", "/a:b", "a:b:c", "a: b", "*:a:b", "* :a", "*: a", "node()", "text ( )", "node", "text", "element", "if", "for",
         "text(a)", "node(a)", "element(a, b)", "element('a')", "processing-instruction(a:b)", "processing-instruction(*)",
         "document-node(element(a))", "item()", "attribute(*)", "element(*)", "/..", "..", "...", "../..", "/ ", "/ a", "/ / a", "/*", "* *",
         "*/*", "/@*/..", "//@k//node()", "self::node()", "ancestor-or-self::node()", "following::node()", "/a\u00a0/b", "/a\u0001", "\u0001",
         "/a(:\u0001:)", "/a(:\ufffe:)", "/a/\ufffe", "/é", "/a=1", "/a = ", "/a div", "/a/div", "div div div", "div", "or", "to", "is", "and", "return",
         "delete", "/delete", "insert/b", "some", "every/a", "/a/for", "validate", "copy $c := <a/> modify () return $c", "/a union /b", "/ union /a",
         "replace node / with <a/>", "processing-instruction('&#0;')", "processing-instruction(\"&#xFFFE;\")", "processing-instruction('&x;')",
         "//processing-instruction('t')", "//processing-instruction(\"&#116;\")", "//processing-instruction('t''')", "'&#0;'", "/a[. = '&#0;']",
         "typeswitch", "text{}", "text {1}", "comment {}", "element {'a'} {}", "<a b='{<c/>}'/>", "<a></b>", "<a>{1}</a>", "<?xml x?>", "<?t x?>",
         "<!-- x -->", "<!-- -- -->", "1.5.2", "1e3", "1a", "'it''s'", "\"", "/a eq /b", "/a is /b", "/a << /b", "/a !", "a!b", "/a;", "{1}", "/a{1}",
         "xml", "xmlns", "child", "child::child", "self ::self", "@ node()", "@@k", "@child::a", "child::@k", "attribute::attribute(k)", "a/ /b", "a/ //b",
         "descendant-or-self::*", "descendant-or-selfx::*", "following-sibling::*", "followingsibling::a", "preceding::*/preceding-sibling::node()",
         "(" * 199 + "1" + ")" * 199, "(" * 199 + "a" + ")" * 199, "(" * 200 + ")" * 200, "(" * 200 + "1" + ")" * 200, "(" * 201, "(" * 199 + "'s'",
         "(" * 199 + "." + ")" * 199, "<a>" * 198 + "</a>" * 198, "<a>" * 199 + "</a>" * 199, "/a[" * 199 + "1" + "]" * 199, "/a[" * 200 + "1" + "]" * 200,
         "-" * 300 + "1", "(:" * 300 + ":)" * 300 + "/a", "/a" * 300, "((((((((\u0001))))))))"]


POOL = []


def tests(rng):
    k = rng.random()
    if POOL and rng.random() < 0.35:
        return [rng.choice(["", "", "*:"]) + rng.choice(POOL)]
    if k < 0.3:
        return [rng.choice(LOCALS + ["k", "lang", "xmlns"])]
    if k < 0.45:
        return ["*"]
    if k < 0.6:
        return ["*:" + rng.choice(LOCALS + ["k", "k", "lang", "space"])]
    if k < 0.78:
        return ["node", "(", ")"]
    if k < 0.84:
        return [rng.choice(["text", "comment"]), "(", ")"]
    if k < 0.87:
        return ["document-node", "(", ")"]
    if k < 0.92:
        arg = rng.choice([[], ["t"], ["s"], ["'t'"], ["\"s\""], ["'&#116;'"], ["xml-s"], ["\"x\"\"y\""], ["'&#0;'"]])
        return ["processing-instruction", "("] + arg + [")"]
    if k < 0.97:
        return ["element", "("] + rng.choice([[], ["*"], [rng.choice(LOCALS)]]) + [")"]
    return ["attribute", "("] + rng.choice([[], ["*"], [rng.choice(LOCALS + ["k"])]]) + [")"]


def path(rng):
    toks = []
    k = rng.random()
    if k < 0.05:
        toks = ["/"]
    else:
        toks += rng.choice([[], ["/"], ["//"], ["//"], ["//"]])
        for i in range(rng.choice([1, 1, 2, 2, 3, 4])):
            if i:
                toks.append(rng.choice(["/", "/", "//"]))
            k = rng.random()
            if k < 0.07:
                toks.append("..")
            elif k < 0.2:
                toks += ["@"] + tests(rng)
            elif k < 0.6:
                toks += [rng.choice(peg.AXES), "::"] + tests(rng)
            else:
                toks += tests(rng)
    gaps = rng.random()

    def gap():
        if gaps > 0.3 or rng.random() < 0.5:
            return ""
        return rng.choice([" ", "  ", "\t", "\r", "(::)", "(: c :)", "(:(:x:):)", " (:'\":) ", "(:(:)", "(: - :) "])
    out = gap()
    for t in toks:
        out += t + gap()
    return out


def query(rng, grammar):
    k = rng.random()
    if k < 0.74:
        return path(rng)
    if k < 0.84:
        q = path(rng)
        for _ in range(rng.choice([1, 1, 2])):
            i = rng.randint(0, len(q))
            if rng.random() < 0.5:
                q = q[:i] + rng.choice(list("/@:*()[].,'\"$a1 -&;!|+<>={}\u0001\xb7é") + ["::", "//", "..", "(:", ":)", "div ", "node()"]) + q[i:]
            else:
                q = q[:i] + q[i + 1:]
        return q
    if k < 0.93 or not grammar:
        return rng.choice(FIXED)
    q = peg.sample(rng)
    if rng.random() < 0.3:
        i = rng.randint(0, len(q))
        q = q[:i] + rng.choice(["", "a", "(", ")", "{", "<", " ", "'", "$"]) + q[i + rng.choice([0, 1]):]
    return q


# ------------------------------------------------------------------ scripts

NAMES = ["d", "d", "d", "e", "e", "f-1", "X_9", "0", "n" * 64]
BAD_NAMES = ["n" * 65, "a.b", "é", "a/b", "<a/>", "d<a/>", "d!", "\ufeffd", "*"]
IN_FILES = ["f.xml", "g.xml", "in/f.xml", "in/deep/h.xml", "noext", "A-1_.xml", "odd!.xml", "in/é.xml", "a..b"]
ODD_FILES = ["no.xml", "in/no.xml", "in", "in/deep", "f.xml/x.xml", "nodir/x.xml", "in/../f.xml", "./f.xml", "in//f.xml", ".", "..x",
             "x/", "in/", "f.xml/", "f.xml/.", "y" * 255, "y" * 256, "y/" * 2040 + "zzzz.xml", "a" * 4096, "a" * 4097, "f\0.xml", "f\0/g.xml",
             "in/..", "\"f.xml\"", "f.xml;", "-", "F.XML", "é.xml"]
OUT_FILES = ["o.xml", "o.xml", "o2.xml", "in/o.xml", "f.xml", "g.xml", "<o", "in/deep/h.xml"]
BAD_OUT = ["nodir/o.xml", "in", "in/", "f.xml/o.xml", "new/", ".", "y" * 256, "a" * 4096, "a" * 4097, "o\0", "in/deep/..", "in/./o3.xml"]
OTHER = ["CHECK d", "OPEN d", "OPEN", "CLOSE", "CLOSE CURSOR 1", "DROP DB d", "DROP DB", "DROP", "DROP INDEX TEXT", "DROP INDEX FOO", "DROP FOO",
         "ADD <a/>", "ADD TO x <a/>", "ADD", "DELETE d.xml", "REPLACE d.xml <a/>", "RENAME a b", "EXPLAIN /a", "EXPLAIN", "CREATE INDEX TEXT",
         "CREATE INDEX", "CREATE INDEX FOO", "CREATE", "CREATE FOO", "CREATE DB", "OPTIMIZE", "OPTIMIZE ALL", "OPTIMIZE FOO", "INFO DB", "INFO DB x",
         "INFO INDEX TEXT", "INFO INDEX", "INFO", "INFO FOO", "LIST d", "LIST x y", "CURSOR //a", "FETCH 1 1", "SAVE d.img", "LOAD e d.img", "FOO",
         "TABLE", "TABLE a b", "XQUERY", "EXPORT", "EXPORT d.xml", "EXPORT d.xml a b", "EXPORT /d.xml o.xml", "EXPORT d.xml/ o.xml", "EXPORT a//b o.xml",
         "EXPORT d! o.xml", "EXPORT " + "p" * 255 + " o.xml", "EXPORT " + "p" * 256 + " o.xml", "EXIT now", "EXIT1", "TABLE<a/>", "LIST;", "LIST\x0b",
         "\xa0LIST", "L\u0131ST", "LI\u017fT", "OPENd", "CHECKS d", "DROP  DB", "INDEX", "CREATEDB d", "CREATE DBd", "INFO STORAGE1", "INFOSTORAGE",
         "XQUERY/a", "<a/>", "/a", "TABLE > x", "\ufeffLIST", "HELP", "ADDTO", "SET x y", "DELETE", "REPLACE", "RENAME", "CHECK"]
RAW = [b"TABLE <a>\xff</a>", b"\xff", b"LIST \xc3", b"XQUERY /a\x80", b"FOO \xff", b"CREATE DB d <a>\xed\xa0\x80</a>", b"TABLE f\xff.xml", b"EXIT \xfe", b"\xc0\x80",
       b"OPEN \xff", b"EXPORT d.xml o\xff.xml", b"INFO STORAGE \xff\xff"]


def case(rng, word):
    if rng.random() < 0.75:
        return word
    return "".join(c.lower() if rng.random() < 0.5 else c for c in word)


def blank(rng):
    return " " if rng.random() < 0.85 else rng.choice(["  ", "\t", " \t ", "   "])


def words(rng, *ws):
    return blank(rng).join(ws) if len(ws) < 2 else "".join(w + (blank(rng) if i < len(ws) - 1 else "") for i, w in enumerate(ws))


def script(rng, grammar=True, open_readings=False):
    """(script bytes, files)"""
    files = {}
    for name in IN_FILES:
        if rng.random() < 0.75:
            files[name] = file_bytes(rng)
    if "in/deep/h.xml" not in files:
        files["in/deep/keep"] = b"k"
    if "in/f.xml" not in files:
        files["in/keep"] = b"k"
    if "f.xml" not in files:
        files["f.xml"] = b"<a/>"
    lines = []
    queue = []

    def inp(bad=0.1):
        k = rng.random()
        if k < 0.55:
            t = document(rng, True)
            if rng.random() < 0.02:
                t = " " + t
            return t
        if k < 1 - bad:
            return rng.choice(IN_FILES + ["o.xml", "o.xml", "o2.xml"])
        return rng.choice(ODD_FILES)

    def path_of(name, given):
        if given is None:
            return None
        return name + ".xml" if given.startswith("<") else given.rsplit("/", 1)[-1]

    last = [None]
    del POOL[:]
    n = rng.randint(5, 40)
    first = True
    while len(lines) < n:
        if queue:
            lines.append(queue.pop(0))
            continue
        k = rng.random()
        if first and rng.random() < 0.8:
            k = 0.0
        first = False
        if k < 0.17:
            name = rng.choice(NAMES) if rng.random() < 0.93 else rng.choice(BAD_NAMES)
            given = inp() if rng.random() < 0.93 else None
            if len(lines) < 3 and rng.random() < 0.8:
                name, given = rng.choice(NAMES), document(rng, True, True)
            last[0] = path_of(name, given)
            if given and given.startswith("<"):
                POOL[:] = [w for w in re.findall("[A-Za-z_][A-Za-z0-9_.-]*", given) if len(w) < 9][:40]
            lines.append(words(rng, case(rng, "CREATE"), case(rng, "DB"), name, *([given] if given is not None else [])))
            if rng.random() < 0.35:
                queue.append(words(rng, case(rng, "INFO"), case(rng, "STORAGE")))
        elif k < 0.27:
            lines.append(words(rng, case(rng, "TABLE"), inp()))
        elif k < 0.60:
            lines.append(words(rng, case(rng, "XQUERY"), query(rng, grammar).replace("\n", " ")))
        elif k < 0.70:
            nums = []
            if rng.random() < 0.7:
                for _ in range(2):
                    nums.append(str(rng.choice([0, 0, 1, 1, 2, 3, 5, 8, 13, 20, 999999999, rng.randint(0, 40)])))
                if rng.random() < 0.15:
                    nums = rng.choice([["1"], ["1", "2", "3"], ["1234567890", "1"], ["0", "1234567890"], ["-1", "2"], ["+1", "2"], ["a", "b"],
                                       ["1", "x"], ["0x1", "2"], ["1.0", "2"], ["\u0661", "\u0662"], ["1,", "2"], ["999999999", "0"], ["<a/>"]])
                if open_readings and rng.random() < 0.1:
                    nums = rng.choice([["00", "01"], ["000000001", "09"]])
            lines.append(words(rng, case(rng, "INFO"), case(rng, "STORAGE"), *nums))
        elif k < 0.76:
            lines.append(case(rng, "LIST"))
        elif k < 0.88:
            p = last[0] if last[0] and rng.random() < 0.8 else rng.choice(["d.xml", "e.xml", "f.xml", "q.xml", "D.xml", "o.xml"])
            if not p or any(c in " \t" for c in p):
                p = "d.xml"
            f = rng.choice(OUT_FILES) if rng.random() < 0.85 else rng.choice(BAD_OUT)
            lines.append(words(rng, case(rng, "EXPORT"), p, f))
            if rng.random() < 0.5:
                # read again what was printed
                queue.append(words(rng, case(rng, "TABLE"), f))
                if rng.random() < 0.5:
                    d = rng.choice(NAMES)
                    queue.append(words(rng, "CREATE", "DB", d, f))
                    last[0] = path_of(d, f)
                    queue.append("INFO STORAGE")
                    queue.append("EXPORT " + (last[0] or "d.xml") + " o2.xml")
        elif k < 0.95:
            lines.append(rng.choice(OTHER))
        elif k < 0.97:
            lines.append(rng.choice(RAW))
        elif k < 0.99:
            lines.append(rng.choice(["", " ", "\t", " \t ", "\r", " \r"]))
        else:
            lines.append(case(rng, "EXIT"))
    out = b""
    for i, line in enumerate(lines):
        data = line.encode("utf-8", "surrogatepass") if isinstance(line, str) else line
        assert b"\n" not in data, data
        if rng.random() < 0.06:
            data = rng.choice([b" ", b"\t", b"  "]) + data
        if rng.random() < 0.06:
            data = data + rng.choice([b" ", b"\t", b" \t"])
        end = rng.random()
        data += b"\r\n" if end < 0.06 else b"\r\r\n" if end < 0.065 else b"\n"
        out += data
    if rng.random() < 0.2:
        out = out[:-1]
    return out, files
