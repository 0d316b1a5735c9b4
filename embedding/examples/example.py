"""Transactions that are committed and undone, threads, and a store that starts from the texts of another one."""
import threading

import pcalc_embedded


def main():
    with pcalc_embedded.Store() as store:
        with store.transaction() as t:
            t[b"fig"] = b"seven"
            print("sum", t.add(b"sold", 5))
        print("committed", t.entry)
        try:
            with store.transaction() as t:
                t[b"fig"] = b"eight"
                raise ValueError("undone")
        except ValueError as why:
            print(why)
        threads = [threading.Thread(target=lambda: [store.run(lambda t: t.add(b"all", 1)) for _ in range(50)]) for _ in range(4)]
        for thread in threads:
            thread.start()
        for thread in threads:
            thread.join()
        try:
            with store.transaction() as t:
                t.add(b"fig", 1)
        except pcalc_embedded.Refused as why:
            print("refused", why)
        print("file", store.checkpoint())
        base, part, log = store.base(), store.part(1), store.log()
    with pcalc_embedded.Store(base=base, parts=[part], log=log) as again, again.transaction() as t:
        print("fig", t[b"fig"], "all", int.from_bytes(t[b"all"], "big"), "pear", t.get(b"pear"))


main()
