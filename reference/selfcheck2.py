"""Each element printed alone and read again has the same names, values and shape."""
import random, sys
import generate
from reference import *
n=int(sys.argv[1]); done=0
def shape(nodes):
    base=nodes[0].pre
    return [(m.pre-base,m.size,m.kind,m.uri,m.prefix,m.local,m.value) for m in nodes]
for i in range(n):
    rng=random.Random("s2%d"%i)
    try: doc=import_xml(generate.file_bytes(rng))
    except Refused: continue
    db=Database("d",[doc])
    for m in db.nodes:
        if m.kind=="elem":
            a=shape(db.nodes[m.pre:m.pre+m.size])
            d=import_xml(print_node(m).encode())
            nd=Database("e",[d]).nodes[1:]
            assert shape(nd)==a,(print_node(m),a,shape(nd))
            done+=1
print(done,"elements")
