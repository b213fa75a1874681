"""The store of bindings/python, driven by lines, as described in store_driver.c."""

import os
import sys

sys.dont_write_bytecode = True
sys.path.insert(0, os.path.join(os.path.dirname(os.path.abspath(__file__)), "..", "..", "..", "bindings", "python"))
from serf_agent.store import Broken, Store, StoreError


def make_call(stores, number, call, words):
    if call == "open":
        if stores[number] is not None:
            stores[number].close()
        stores[number] = Store(words[0] if words else "")
    elif stores[number] is None:
        raise Broken()
    elif call == "read":
        return stores[number].read().hex() + " "
    elif call == "close":
        stores[number].close()
        stores[number] = None
    else:
        getattr(stores[number], call)(bytes.fromhex("".join(words)))
    return ""


def main():
    stores = [None, None]
    for line in sys.stdin:
        number, text = (1, line[2:]) if line.startswith("1 ") else (0, line)
        call, _, word = text.rstrip("\n").partition(" ")
        try:
            print(make_call(stores, number, call, [word] if word else []) + "ok", flush=True)
        except StoreError as error:
            print(type(error).__name__ if type(error) is not StoreError else "Failed", flush=True)


if __name__ == "__main__":
    main()
