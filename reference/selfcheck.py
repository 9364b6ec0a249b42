"""Checks the reference itself: Print's law, and well-formedness against expat where both rule."""
import random, sys, xml.parsers.expat as X
from collections import Counter
import generate, reference
from reference import *
n=int(sys.argv[1]); c=Counter(); shown=0
for i in range(n):
    rng=random.Random("sc%d"%i)
    data=generate.file_bytes(rng)
    try:
        doc=import_xml(data); code=None
    except Refused as r:
        code=r.code
    c[code]+=1
    if code is None:
        doc.value="x"; a=[row(m) for m in Database("",[doc]).nodes]
        p=print_node(doc)
        d2=import_xml(p.encode()); d2.value="x"
        b=[row(m) for m in Database("",[d2]).nodes]
        assert a==b,(data,p,a,b)
        assert print_node(d2)==p
    pr=X.ParserCreate(namespace_separator="\x02")
    try:
        pr.Parse(data,True); e=None
    except LookupError:
        continue
    except X.ExpatError as ex:
        e=X.errors.messages[ex.code]
    ok=(code is None)==(e is None)
    if not ok and code not in ("XKXM0001","XKXM0006","XKXM0003"):
        c[(code,e)]+=1
        if shown<int(sys.argv[2]):
            shown+=1; print(code,e,data[:600])
print(c)
