"""Two transactions, and a store that starts from what was kept of the first one."""
import pcalc_embedded
with pcalc_embedded.Store() as store:
    with store.transaction() as t:              # committed at the end of the block, aborted if it raises
        t[b"fig"] = b"6"
        t.add(b"sold", 5)
    print("entry", t.entry)                     # its entry in the log: 1
    store.run(lambda t: t.add(b"sold", 1))      # begun again if it dies
    base, log = store.base(), store.log()       # what to keep
with pcalc_embedded.Store(base=base, log=log) as again:
    print("sold", again.run(lambda t: t.add(b"sold", 0)))
