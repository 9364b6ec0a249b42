#!/usr/bin/env python3
"""A second reading of what the kernel answers so far: commands, the XML of documents, the whole grammar of
queries, and the values of paths. Written from the specification alone, without a look at the crates.

Reference(files).run(script) gives (reply bytes, status); files are in .files afterwards.
As a program it reads the script on standard input and takes files from the folder it stands in."""
import os
import re
import sys

sys.path.insert(0, os.path.dirname(os.path.abspath(__file__)))
import peg

XML_URI = "http://www.w3.org/XML/1998/namespace"
XMLNS_URI = "http://www.w3.org/2000/xmlns/"


class Refused(Exception):
    def __init__(self, code):
        Exception.__init__(self, code)
        self.code = code


# ------------------------------------------------------------------ files

class MemFiles:
    """A folder in memory: names to bytes, and the folders that the names imply."""

    def __init__(self, files):
        self.files = dict(files)
        self.dirs = {()}
        for name in files:
            parts = tuple(name.split("/"))
            for i in range(len(parts)):
                self.dirs.add(parts[:i])

    def place(self, name):
        """('dir' | 'file' | 'new' | 'missing' | 'fault', parts, slash at the end)"""
        raw = name.encode()
        if b"\0" in raw or len(raw) >= 4096:
            return "fault", None, False
        assert not name.startswith("/"), "names outside the folder aren't modelled"
        parts = name.split("/")
        at, state = (), "dir"
        for i, part in enumerate(parts):
            last = i == len(parts) - 1
            if state == "file":
                return "fault", None, False          # ENOTDIR, also for x/ and x/.
            if state == "new":
                if part == "" and all(p == "" for p in parts[i:]):
                    return "new", at, True
                return "missing", None, False
            if part in ("", "."):
                continue
            if part == "..":
                assert at, "names outside the folder aren't modelled"
                at = at[:-1]
                continue
            if len(part.encode()) > 255:
                return "fault", None, False
            at = at + (part,)
            if at in self.dirs:
                state = "dir"
            elif "/".join(at) in self.files:
                state = "file"
            else:
                state = "new"
        return state, at, parts[-1] == ""

    def read(self, name, limit):
        state, at, slash = self.place(name)
        if state in ("new", "missing"):
            return "missing", None
        if state != "file":
            return "fault", None
        data = self.files["/".join(at)]
        if len(data) > limit:
            return "long", None
        return "bytes", data

    def write(self, name, data):
        state, at, slash = self.place(name)
        if state not in ("file", "new") or slash:
            return False
        self.files["/".join(at)] = data
        return True


class RealFiles:
    """The files of the present folder."""

    def read(self, name, limit):
        try:
            with open(name, "rb") as f:
                data = f.read(limit + 1)
        except FileNotFoundError:
            return "missing", None
        except (OSError, ValueError):
            return "fault", None
        return ("long", None) if len(data) > limit else ("bytes", data)

    def write(self, name, data):
        try:
            with open(name, "wb") as f:
                f.write(data)
        except (OSError, ValueError):
            return False
        return True


# ------------------------------------------------------------------ trees

class Node:
    __slots__ = ("kind", "uri", "prefix", "local", "value", "decls", "attrs", "children", "parent", "pre", "size", "id")

    def __init__(self, kind, name=("", "", ""), value=""):
        self.kind = kind
        self.uri, self.prefix, self.local = name
        self.value = value
        self.decls = []
        self.attrs = []
        self.children = []
        self.parent = None
        self.pre = self.size = self.id = None

    def qname(self):
        return self.prefix + ":" + self.local if self.prefix else self.local


def walk(tree):
    """The tree, its attributes, the walks of its children."""
    out, stack = [], [tree]
    while stack:
        n = stack.pop()
        out.append(n)
        for a in n.attrs:
            out.append(a)
        stack.extend(reversed(n.children))
    return out


def number(forest):
    """Gives places and sizes; answers the walk of the forest."""
    nodes = []
    for tree in forest:
        nodes.extend(walk(tree))
    for i, n in enumerate(nodes):
        n.pre = i
        n.size = 1
    for n in reversed(nodes):
        if n.parent is not None:
            n.parent.size += n.size
    return nodes


# ------------------------------------------------------------------ XML input, profile part G

def _class(ranges):
    return "".join("%s-%s" % (re.escape(chr(a)), re.escape(chr(b))) for a, b in ranges)


START = "[" + _class(peg.START) + "]"
MORE = "[" + _class(peg.START + peg.MORE) + "]"
NCNAME = START + MORE + "*"
R_NCNAME = re.compile(NCNAME)
R_QNAME = re.compile("(?:(" + NCNAME + "):)?(" + NCNAME + ")")
R_BADCHAR = re.compile("[^" + _class(peg.XCHAR) + "]")
R_WS = re.compile("[ \t\r\n]+")
R_REF = re.compile("&(?:#([0-9]+)|#x([0-9A-Fa-f]+)|(" + NCNAME + "));")
W = "[ \t\r\n]"
R_DECL = re.compile(
    "<\\?xml" + W + "+version" + W + "*=" + W + "*(?:\"1\\.[0-9]+\"|'1\\.[0-9]+')"
    "(?:" + W + "+encoding" + W + "*=" + W + "*(?:\"(?P<e1>[A-Za-z][A-Za-z0-9._-]*)\"|'(?P<e2>[A-Za-z][A-Za-z0-9._-]*)'))?"
    "(?:" + W + "+standalone" + W + "*=" + W + "*(?:\"(?:yes|no)\"|'(?:yes|no)'))?"
    + W + "*\\?>")
PUB = "-A-Za-z0-9 \r\n()+,./:=?;!*#@$_%"
R_DOCTYPE = re.compile(
    "<!DOCTYPE" + W + "+" + NCNAME + "(?::" + NCNAME + ")?"
    "(?:" + W + "+(?:SYSTEM|PUBLIC" + W + "+(?:\"[" + PUB + "']*\"|'[" + PUB + "]*'))" + W + "+(?:\"[^\"]*\"|'[^']*'))?"
    + W + "*")
KNOWN = {"lt": "<", "gt": ">", "amp": "&", "quot": '"', "apos": "'"}


class Malformed(Exception):
    pass


class Importer:
    def __init__(self, text):
        self.s = text
        self.fault = None              # (place, code), the first of item 6

    def at_fault(self, place, code):
        if self.fault is None or place < self.fault[0]:
            self.fault = (place, code)

    # every reader takes a place and answers what it read and the place after it

    def comment(self, i):
        e = self.s.find("--", i + 4)
        if e < 0 or not self.s.startswith("-->", e):
            raise Malformed()
        return self.s[i + 4:e], e + 3

    def pi(self, i):
        m = R_NCNAME.match(self.s, i + 2)
        if not m or m.group().lower() == "xml":
            raise Malformed()
        p = m.end()
        if self.s.startswith("?>", p):
            return m.group(), "", p + 2
        w = R_WS.match(self.s, p)
        if not w:
            raise Malformed()
        e = self.s.find("?>", w.end())
        # the run of whitespace may not be followed by ?> within itself, so this find is the first ?>
        if e < 0:
            raise Malformed()
        return m.group(), self.s[w.end():e], e + 2

    def reference(self, i):
        m = R_REF.match(self.s, i)
        if not m:
            raise Malformed()
        dec, hexa, name = m.groups()
        if name is None:
            digits = (dec or hexa).lstrip("0") or "0"
            n = int(digits, 10 if dec else 16) if len(digits) < 12 else 1 << 40
            if n > 0x10FFFF or not any(a <= n <= b for a, b in peg.XCHAR):
                raise Malformed()
            return chr(n), m.end()
        if name in KNOWN:
            return KNOWN[name], m.end()
        self.at_fault(i, "XKXM0004")
        return m.group(), m.end()

    def value(self, i):
        q = self.s[i:i + 1]
        if q not in ("'", '"') or q == "":
            raise Malformed()
        i += 1
        out = []
        while True:
            c = self.s[i:i + 1]
            if c == "" or c == "<":
                raise Malformed()
            if c == q:
                return "".join(out), i + 1
            if c == "&":
                v, i = self.reference(i)
                out.append(v)
                continue
            out.append(" " if c in "\t\r\n" else c)
            i += 1

    def space(self, i):
        m = R_WS.match(self.s, i)
        return m.end() if m else i

    def start_tag(self, i):
        """(prefix, local, attributes as (prefix, local, value), is empty, place after)"""
        m = R_QNAME.match(self.s, i + 1)
        if not m:
            raise Malformed()
        name = (m.group(1) or "", m.group(2))
        atts, seen = [], set()
        p = m.end()
        while True:
            q = self.space(p)
            if self.s.startswith("/>", q):
                return name, atts, True, q + 2
            if self.s.startswith(">", q):
                return name, atts, False, q + 1
            if q == p:
                raise Malformed()
            m = R_QNAME.match(self.s, q)
            if not m:
                raise Malformed()
            p = self.space(m.end())
            if not self.s.startswith("=", p):
                raise Malformed()
            p = self.space(p + 1)
            v, p = self.value(p)
            if m.group() in seen:
                raise Malformed()
            seen.add(m.group())
            atts.append((m.group(1) or "", m.group(2), v))

    def element_of(self, place, name, atts, scope):
        """The element of a start tag and its scope of prefixes."""
        def bad():
            self.at_fault(place, "XKXM0005")
        own, plain = [], []
        for prefix, local, v in atts:
            if prefix == "xmlns":
                own.append((local, v))
            elif prefix == "" and local == "xmlns":
                own.append(("", v))
            else:
                plain.append((prefix, local, v))
        scope = dict(scope)
        node = Node("elem")
        for prefix, uri in own:
            if prefix == "xmlns":
                bad()
            elif prefix == "xml":
                if uri != XML_URI:
                    bad()
            elif uri in (XML_URI, XMLNS_URI):
                bad()
            elif uri == "" and prefix != "":
                bad()
            scope[prefix] = uri
            if prefix != "xml":
                node.decls.append((prefix, uri))
        if name[0] == "xmlns" or name[0] not in scope:
            bad()
        node.prefix, node.local = name
        node.uri = scope.get(name[0], "")
        seen = set()
        for prefix, local, v in plain:
            if prefix and prefix not in scope:
                bad()
                continue
            uri = scope[prefix] if prefix else ""
            if (uri, local) in seen:
                bad()
            seen.add((uri, local))
            a = Node("attr", (uri, prefix, local), v)
            a.parent = node
            node.attrs.append(a)
        return node, scope

    def root(self, i):
        s = self.s
        name, atts, empty, p = self.start_tag(i)
        # the place of a tag counts before what stands in it, so faults of its values are weighed by place
        node, scope = self.element_of(i, name, atts, {"xml": XML_URI, "": ""})
        root = node
        if empty:
            return root, p
        stack = [(node, scope, s[i + 1:i + 1 + len(_qtext(name))])]
        text = []

        def flush():
            v = "".join(text)
            del text[:]
            if v:
                t = Node("text", value=v)
                t.parent = stack[-1][0]
                stack[-1][0].children.append(t)
        while stack:
            c = s[p:p + 1]
            if c == "":
                raise Malformed()
            if c == "&":
                v, p = self.reference(p)
                text.append(v)
            elif c != "<":
                e = p
                while e < len(s) and s[e] not in "<&":
                    e += 1
                if "]]>" in s[p:e]:
                    raise Malformed()
                text.append(s[p:e])
                p = e
            elif s.startswith("<![CDATA[", p):
                e = s.find("]]>", p + 9)
                if e < 0:
                    raise Malformed()
                text.append(s[p + 9:e])
                p = e + 3
            elif s.startswith("<!--", p):
                flush()
                v, p = self.comment(p)
                n = Node("comm", value=v)
                n.parent = stack[-1][0]
                stack[-1][0].children.append(n)
            elif s.startswith("<?", p):
                flush()
                target, v, p = self.pi(p)
                n = Node("pi", ("", "", target), v)
                n.parent = stack[-1][0]
                stack[-1][0].children.append(n)
            elif s.startswith("</", p):
                flush()
                want = stack[-1][2]
                m = R_QNAME.match(s, p + 2)
                if not m or m.group() != want:
                    raise Malformed()
                p = self.space(m.end())
                if not s.startswith(">", p):
                    raise Malformed()
                p += 1
                stack.pop()
            else:
                flush()
                start = p
                name, atts, empty, p = self.start_tag(p)
                node, scope = self.element_of(start, name, atts, stack[-1][1])
                node.parent = stack[-1][0]
                node.parent.children.append(node)
                if not empty:
                    stack.append((node, scope, _qtext(name)))
        return root, p

    def document(self):
        s = self.s
        doc = Node("doc")
        m = R_DECL.match(s)
        i = m.end() if m else 0
        root = doctype = None
        while i < len(s):
            c = s[i]
            if c in " \t\r\n":
                i = self.space(i)
            elif s.startswith("<!--", i):
                v, i = self.comment(i)
                doc.children.append(Node("comm", value=v))
            elif s.startswith("<?", i):
                target, v, i = self.pi(i)
                doc.children.append(Node("pi", ("", "", target), v))
            elif s.startswith("<!", i):
                if doctype is not None or root is not None:
                    raise Malformed()
                doctype = R_DOCTYPE.match(s, i)
                # greedy W* and the optional identifier: what follows is > or [ or nothing that fits
                if not doctype:
                    raise Malformed()
                i = doctype.end()
                if s.startswith("[", i):
                    if R_BADCHAR.search(s, 0, i):
                        raise Malformed()
                    raise Refused("XKXM0003")
                if not s.startswith(">", i):
                    raise Malformed()
                i += 1
            elif c == "<" and root is None:
                root, i = self.root(i)
                doc.children.append(root)
            else:
                raise Malformed()
        if root is None or R_BADCHAR.search(s):
            raise Malformed()
        for n in doc.children:
            n.parent = doc
        return doc


def _qtext(name):
    return name[0] + ":" + name[1] if name[0] else name[1]


def import_xml(data):
    """The document's tree, or Refused with the first fault."""
    if len(data) > 1 << 26:
        raise Refused("XKLM0002")
    try:
        text = data.decode("utf-8")
    except UnicodeDecodeError:
        raise Refused("XKXM0001")
    if text.startswith("\ufeff"):
        text = text[1:]
    text = text.replace("\r\n", "\n").replace("\r", "\n")
    m = R_DECL.match(text)
    if m:
        enc = m.group("e1") or m.group("e2")
        if enc is not None and enc.lower() != "utf-8":
            raise Refused("XKXM0006")
    reader = Importer(text)
    try:
        doc = reader.document()
    except Malformed:
        raise Refused("XKXM0002")
    if reader.fault:
        raise Refused(reader.fault[1])
    return doc


# ------------------------------------------------------------------ printing, profile part H and scope 6.1

def esc_text(v):
    return v.replace("&", "&amp;").replace("<", "&lt;").replace(">", "&gt;").replace("\r", "&#13;")


def esc_attr(v):
    return esc_text(v).replace('"', "&quot;").replace("\t", "&#9;").replace("\n", "&#10;")


def esc_row(v):
    return v.replace("\\", "\\\\").replace("\n", "\\n").replace("\r", "\\r").replace("\t", "\\t")


def print_node(node):
    out = []
    stack = [(node, {"xml": XML_URI, "": ""})]
    while stack:
        item, bound = stack.pop()
        if isinstance(item, str):
            out.append(item)
        elif item.kind == "doc":
            for c in reversed(item.children):
                stack.append((c, bound))
        elif item.kind == "text":
            out.append(esc_text(item.value))
        elif item.kind == "comm":
            out.append("<!--" + item.value + "-->")
        elif item.kind == "pi":
            out.append("<?" + item.local + (" " + item.value if item.value else "") + "?>")
        elif item.kind == "attr":
            out.append(item.qname() + '="' + esc_attr(item.value) + '"')
        else:
            bound = dict(bound)
            out.append("<" + item.qname())
            for prefix, uri in item.decls:
                bound[prefix] = uri
                out.append(" xmlns" + (":" + prefix if prefix else "") + '="' + esc_attr(uri) + '"')
            wanted = [(item.prefix, item.uri)] + [(a.prefix, a.uri) for a in item.attrs if a.prefix]
            for prefix, uri in wanted:
                if bound.get(prefix) != uri:
                    bound[prefix] = uri
                    out.append(" xmlns" + (":" + prefix if prefix else "") + '="' + esc_attr(uri) + '"')
            for a in item.attrs:
                out.append(" " + a.qname() + '="' + esc_attr(a.value) + '"')
            if not item.children:
                out.append("/>")
            else:
                out.append(">")
                stack.append(("</" + item.qname() + ">", None))
                for c in reversed(item.children):
                    stack.append((c, bound))
    return "".join(out)


def row(n):
    dist = n.pre - n.parent.pre if n.parent is not None else 0
    asize = 1 + len(n.attrs) if n.kind == "elem" else 1
    name = esc_row(("{" + n.uri + "}" if n.uri else "") + n.qname())
    if n.kind == "doc":
        content = esc_row(n.value)
    elif n.kind == "elem":
        content = name
        for prefix, uri in n.decls:
            content += " xmlns" + (":" + prefix if prefix else "") + '="' + esc_row(uri) + '"'
    elif n.kind in ("text", "comm"):
        content = esc_row(n.value)
    elif n.kind == "attr":
        content = name + '="' + esc_row(n.value) + '"'
    else:
        content = name + (" " + esc_row(n.value) if n.value else "")
    return "%d %d %d %d %d %s %s" % (n.pre, dist, n.size, asize, n.id, n.kind, content)


# ------------------------------------------------------------------ paths, profile parts A and D

class NoPath(Exception):
    pass


class PathReader:
    """Reads S Path S to the end, a path of axis steps without predicate and prefix, else NoPath."""

    def __init__(self, text):
        self.t = text
        self.r = peg.READER.take(text)
        self.bad_ref = False

    def s(self, p):
        return self.r.rules["S"](p)

    def read(self):
        t = self.t
        p = self.s(0)
        steps = []
        rooted = False
        if t.startswith("//", p):
            rooted = True
            steps.append(("descendant-or-self", ("node",)))
            p = self.rel(self.s(p + 2), steps)
        elif t.startswith("/", p):
            rooted = True
            p += 1
            try:
                mark = list(steps)
                p = self.rel(self.s(p), steps)
            except NoPath:
                steps = mark
        else:
            p = self.rel(p, steps)
        p = self.s(p)
        if p != len(t):
            raise NoPath()
        return rooted, steps

    def rel(self, p, steps):
        p = self.step(p, steps)
        while True:
            q = self.s(p)
            here = list(steps)
            if self.t.startswith("//", q):
                here.append(("descendant-or-self", ("node",)))
                q += 2
            elif self.t.startswith("/", q):
                q += 1
            else:
                return p
            try:
                p = self.step(self.s(q), here)
            except NoPath:
                return p
            steps[:] = here

    def step(self, p, steps):
        t = self.t
        if t.startswith("..", p):
            steps.append(("parent", ("node",)))
            return p + 2
        q = self.r.axis_name(p)
        if q >= 0:
            e = self.s(q)
            if t.startswith("::", e):
                try:
                    test, f = self.test(self.s(e + 2))
                    steps.append((t[p:q], test))
                    return f
                except NoPath:
                    pass
        if t.startswith("@", p):
            test, e = self.test(self.s(p + 1))
            steps.append(("attribute", test))
            return e
        test, e = self.test(p)
        steps.append(("attribute" if test[0] == "attribute" else "child", test))
        return e

    def test(self, p):
        t = self.t
        for word in ("node", "text", "comment", "document-node", "processing-instruction", "element", "attribute"):
            if not t.startswith(word, p):
                continue
            q = self.s(p + len(word))
            if not t.startswith("(", q):
                continue
            q = self.s(q + 1)
            what = None
            if word == "processing-instruction":
                e = self.r.ncname(q)
                if e >= 0:
                    what = t[q:e]
                    q = e
                else:
                    e = self.r.rules["String"](q)
                    if e >= 0:
                        what = self.string(t[q:e])
                        q = e
                q = self.s(q)
            elif word in ("element", "attribute"):
                if t.startswith("*", q):
                    q += 1
                else:
                    e = self.r.ncname(q)
                    if e >= 0:
                        what = t[q:e]
                        q = e
                q = self.s(q)
            if t.startswith(")", q):
                return (word, what), q + 1
        if t.startswith("*:", p):
            q = self.r.ncname(p + 2)
            if q >= 0:
                return ("name", None, t[p + 2:q]), q
        if t.startswith("*", p):
            return ("name", None, None), p + 1
        q = self.r.ncname(p)
        if q < 0:
            raise NoPath()
        return ("name", "", t[p:q]), q

    def string(self, lit):
        q, body = lit[0], lit[1:-1]
        body = body.replace("\r\n", "\n").replace("\r", "\n").replace(q + q, q)

        def ref(m):
            dec, hexa, name = m.groups()
            if name is not None:
                return KNOWN[name]
            digits = (dec or hexa).lstrip("0") or "0"
            n = int(digits, 10 if dec else 16) if len(digits) < 12 else 1 << 40
            if not any(a <= n <= b for a, b in peg.XCHAR):
                self.bad_ref = True
                return "?"
            return chr(n)
        return R_REF.sub(ref, body)


def ancestors(nodes):
    """For each place the list of ancestors, upward."""
    out = []
    for n in nodes:
        out.append([] if n.parent is None else [n.parent] + out[n.parent.pre])
    return out


def axis_nodes(db, n, axis):
    """The list of Axis, by membership in the walk."""
    nodes = db.nodes

    def above(m):
        return db.above[m.pre]

    def inside(m):
        return n in above(m)
    if axis == "self":
        return [n]
    if axis == "parent":
        return above(n)[:1]
    if axis == "ancestor":
        return above(n)
    if axis == "ancestor-or-self":
        return [n] + above(n)
    if axis == "child":
        return n.children
    if axis == "attribute":
        return n.attrs
    below = [m for m in nodes[n.pre + 1:n.pre + n.size] if m.kind != "attr"]
    if axis == "descendant":
        return below
    if axis == "descendant-or-self":
        return [n] + below
    if axis in ("following-sibling", "preceding-sibling"):
        if n.parent is None or n.kind == "attr":
            return []
        i = n.parent.children.index(n)
        return n.parent.children[i + 1:] if axis == "following-sibling" else n.parent.children[:i]
    root = (above(n) or [n])[-1]
    whole = [m for m in nodes if m.kind != "attr" and (m is root or root in above(m))]
    if axis == "following":
        return [m for m in whole if m.pre > n.pre and not inside(m)]
    over = above(n)
    return [m for m in whole if m.pre < n.pre and m not in over]


def passes(n, axis, test):
    kind = test[0]
    if kind == "name":
        return (n.kind == ("attr" if axis == "attribute" else "elem") and (test[1] is None or n.uri == test[1])
                and (test[2] is None or n.local == test[2]))
    if kind == "node":
        return True
    want = {"text": "text", "comment": "comm", "document-node": "doc", "processing-instruction": "pi",
            "element": "elem", "attribute": "attr"}[kind]
    if n.kind != want:
        return False
    if len(test) < 2 or test[1] is None:
        return True
    return n.uri == "" and n.local == test[1]


def value_path(db, steps):
    now = list(db.docs)
    for axis, test in steps:
        found = {}
        for n in now:
            for m in axis_nodes(db, n, axis):
                if m.pre not in found and passes(m, axis, test):
                    found[m.pre] = m
        now = [found[p] for p in sorted(found)]
    return now


# ------------------------------------------------------------------ commands

NAME = re.compile(rb"[A-Za-z0-9_-]{1,64}\Z")
PATH = re.compile(rb"[A-Za-z0-9_.-]+(?:/[A-Za-z0-9_.-]+)*\Z")
NUM = re.compile(rb"[0-9]{1,9}\Z")
NOT_BUILT = [[b"CHECK"], [b"OPEN"], [b"CLOSE"], [b"DROP", b"DB"], [b"ADD"], [b"DELETE"], [b"REPLACE"], [b"RENAME"],
             [b"EXPLAIN"], [b"CREATE", b"INDEX"], [b"DROP", b"INDEX"], [b"OPTIMIZE"], [b"INFO", b"DB"],
             [b"INFO", b"INDEX"]]


def is_path(word):
    return len(word) <= 255 and PATH.match(word) is not None


def split_word(rest):
    """The first word of a text without blanks at its ends, and what comes after the blanks."""
    i = 0
    while i < len(rest) and rest[i] not in b" \t":
        i += 1
    return rest[:i], rest[i:].lstrip(b" \t")


def ascii_upper(w):
    return bytes(c - 32 if 97 <= c <= 122 else c for c in w)


class Database:
    def __init__(self, name, docs):
        self.name = name
        self.docs = docs
        self.nodes = number(docs)
        self.above = ancestors(self.nodes)
        for n in self.nodes:
            n.id = n.pre
        self.next = len(self.nodes)


class Reference:
    def __init__(self, files=None):
        self.store = files if hasattr(files, "read") else MemFiles(files or {})
        self.dbs = []
        self.open = None
        self.log = []               # (line, reply) of each command

    @property
    def files(self):
        return self.store.files

    def run(self, script):
        if not isinstance(script, (bytes, bytearray)):
            script = b"".join((l.encode() if isinstance(l, str) else l) + b"\n" for l in script)
        out, status = [], 0
        lines = script.split(b"\n")
        if lines[-1] == b"":
            lines.pop()
        for line in lines:
            if len(line) > 1 << 24:
                reply = b"err XKLM0001\n"
                done = False
            else:
                if line.endswith(b"\r"):
                    line = line[:-1]
                line = line.strip(b" \t")
                if line == b"":
                    continue
                done = False
                try:
                    payload, done = self.command(line)
                    if isinstance(payload, str):
                        payload = payload.encode("utf-8")
                    reply = b"ok %d\n" % len(payload) + payload + b"\n"
                except Refused as r:
                    reply = b"err " + r.code.encode() + b"\n"
            if reply.startswith(b"err"):
                status = 1
            out.append(reply)
            self.log.append((line, reply))
            if done:
                break
        return b"".join(out), status

    # ---- one command

    def command(self, line):
        try:
            line.decode("utf-8")
        except UnicodeDecodeError:
            raise Refused("XKCM0001")
        w1, rest = split_word(line)
        w1 = ascii_upper(w1)
        w2, rest2 = split_word(rest)
        w2 = ascii_upper(w2)
        if w1 == b"TABLE":
            return self.table(self.input(rest)), False
        if w1 == b"CREATE" and w2 == b"DB":
            name, rest3 = split_word(rest2)
            if name == b"":
                raise Refused("XKCM0001")
            return self.create(name, rest3), False
        if w1 == b"INFO" and w2 == b"STORAGE":
            nums = rest2.replace(b"\t", b" ").split(b" ")
            nums = [n for n in nums if n]
            if len(nums) not in (0, 2) or not all(NUM.match(n) for n in nums):
                raise Refused("XKCM0001")
            if self.open is None:
                raise Refused("XKDB0001")
            a, b = (int(nums[0]), int(nums[1])) if nums else (0, len(self.open.nodes))
            return "\n".join(row(n) for n in self.open.nodes if a <= n.pre < b), False
        if w1 == b"LIST":
            if rest:
                raise Refused("XKCM0002")
            return "\n".join("%s %d %d" % (d.name, len(d.docs), len(d.nodes)) for d in self.dbs), False
        if w1 == b"XQUERY":
            if rest == b"":
                raise Refused("XKCM0001")
            return self.xquery(rest.decode("utf-8")), False
        if w1 == b"EXPORT":
            path, rest2 = split_word(rest)
            name, more = split_word(rest2)
            if not is_path(path) or name == b"" or more or len(name) > 4096:
                raise Refused("XKCM0001")
            return self.export(path, name.decode("utf-8")), False
        if w1 == b"EXIT" and rest == b"":
            return "", True
        words = [w1, w2]
        for fixed in NOT_BUILT:
            if words[:len(fixed)] == fixed:
                raise Refused("XKCM0002")
        raise Refused("XKCM0001")

    def input(self, rest):
        """('text', bytes) or ('file', name)"""
        if rest.startswith(b"<"):
            return "text", rest
        word, more = split_word(rest)
        if word == b"" or more or len(word) > 4096:
            raise Refused("XKCM0001")
        return "file", word.decode("utf-8")

    def load(self, given):
        kind, what = given
        if kind == "file":
            state, data = self.store.read(what, 1 << 26)
            if state == "missing":
                raise Refused("XKFI0001")
            if state == "fault":
                raise Refused("XKFI0002")
            if state == "long":
                raise Refused("XKLM0002")
            what = data
        doc = import_xml(what)
        if len(walk(doc)) > 1 << 24:
            raise Refused("XKLM0003")
        return doc

    def table(self, given):
        doc = self.load(given)
        doc.value = "table"
        return "\n".join(row(n) for n in Database("", [doc]).nodes)

    def create(self, name, rest):
        given = None
        path = None
        if rest:
            given = self.input(rest)
            if given[0] == "file":
                path = given[1].encode().rsplit(b"/", 1)[-1]
                if not is_path(path):
                    raise Refused("XKCM0001")
                path = path.decode()
        if not NAME.match(name):
            raise Refused("XKDB0003")
        name = name.decode()
        docs = []
        if given:
            doc = self.load(given)
            doc.value = path if path is not None else name + ".xml"
            docs.append(doc)
        db = Database(name, docs)
        self.dbs = [d for d in self.dbs if d.name != name] + [db]
        self.open = db
        return ""

    def xquery(self, query):
        code = peg.fits(query)
        reader = PathReader(query)
        try:
            rooted, steps = reader.read()
        except NoPath:
            raise Refused(code or "XKCM0002")
        assert code is None, (code, query)
        if reader.bad_ref:
            raise Refused("XQST0090")
        if self.open is None:
            raise Refused("XPDY0002")
        return "\n".join(print_node(n) for n in value_path(self.open, steps))

    def export(self, path, name):
        if self.open is None:
            raise Refused("XKDB0001")
        for d in self.open.docs:
            if d.value.encode() == path:
                if not self.store.write(name, print_node(d).encode("utf-8")):
                    raise Refused("XKFI0002")
                return ""
        raise Refused("XKDB0004")


if __name__ == "__main__":
    if len(sys.argv) > 1:
        sys.exit(2)
    reply, status = Reference(RealFiles()).run(sys.stdin.buffer.read())
    sys.stdout.buffer.write(reply)
    sys.stdout.buffer.flush()
    sys.exit(status)
