"""Calls on threads of their own."""
import threading

import pytest


def on_a_thread(call, *words):
    """What the call gives on a thread of its own, at its end."""
    found = []
    thread = threading.Thread(target=lambda: found.append(call(*words)))
    thread.start()
    thread.join()
    return found[0]


def check_that_one_thread_is_taken(it, long_call, other_call):
    """While one call runs on a thread of its own this thread runs too, and its calls on the same thing are refused."""
    refused = []
    thread = threading.Thread(target=long_call)
    thread.start()
    while thread.is_alive():
        try:
            other_call()
        except RuntimeError as why:
            refused.append(str(why))
            if len(refused) == 1:
                with pytest.raises(RuntimeError, match="cannot be closed"):
                    it.close()
    thread.join()
    # Were the interpreter locked in the call, none would come to its turn while it lasts.
    kind = type(it).__name__.lower()
    assert len(refused) > 100 and set(refused) == {f"another thread is using this {kind}: give each its own, or share a lock"}
