"""Import in subinterpreters, one after another and concurrently, and use of objects there."""
import importlib
import sys
import threading
import unittest

CODE = """
import sys
sys.path[:] = {path!r}
import copy
import noddychest
from noddychest import *
for _ in range(30):
    assert [it.char for it in pieces(b"h\\xc3\\xa9\\xff")] == ["h", "é", None]
    assert recode(b"f\\xcfb", "utf8", "utf16le") == b"f\\0\\xfd\\xffb\\0"
    assert b"a\\xff".decode("noddychest-utf8", "backslashreplace") == "a\\\\xff"
    assert decode(b"\\x80", errors="windows-1252") == decode(b"\\x80", errors=lambda byte: 0x20AC) == b"\\x80".decode("utf-8", "noddychest.windows-1252") == "€"
    assert first_fault(b"a" * 100_000 + b"\\xff").offset == char_count(b"a" * 100_000)
    recoder = Recoder("utf8", "utf8", "strict")
    recoder.feed(b"\\xc3")
    assert copy.copy(recoder).feed(b"\\xa9") == b"\\xc3\\xa9"
    decoder = Decoder(offset=5)
    kept = decoder.feed(b"a\\xc3")
    assert [it.offset for it in copy.copy(decoder).finish()] == [6] and [it.char for it in decoder.feed(b"\\xa9")] == ["é"]
    assert [it.error for it in decoder.feed_faults(b"\\xff")] == [FaultKind.NON_UTF8_BYTE] and next(kept).char == "a"
    assert [it.offset for it in stream_faults([b"a" * 100_000, b"\\xff"])] == [100_000]
    try:
        recoder.feed(b"\\xff")
    except FaultError as fault:
        assert fault.error is FaultKind.INTERRUPTED_SEQUENCE and FaultKind.__module__ == "noddychest"
    else:
        raise SystemError("no fault")
"""


def interpreters():
    """How to make an interpreter, run code in it, and end it; each has a lock of its own where Python has that (from 3.12 on)."""
    for name in ("_interpreters", "_xxsubinterpreters"):
        try:
            module = importlib.import_module(name)
        except ImportError:
            continue
        run = getattr(module, "exec", None) or module.run_string

        def checked(which, code):
            failed = run(which, code)
            if failed is not None:
                raise AssertionError(failed)

        return module.create, checked, module.destroy
    return None


FOUND = interpreters()


@unittest.skipIf(FOUND is None, "this Python has no module for subinterpreters")
class Interpreters(unittest.TestCase):
    CODE = CODE.format(path=sys.path)

    def test_one_after_another(self):
        create, run, destroy = FOUND
        for _ in range(4):
            it = create()
            run(it, self.CODE)
            run(it, self.CODE)
            destroy(it)

    def test_at_once(self):
        create, run, destroy = FOUND
        raised = []

        def work():
            try:
                it = create()
                for _ in range(3):
                    run(it, self.CODE)
                destroy(it)
            except BaseException as error:  # noqa: B902
                raised.append(error)

        threads = [threading.Thread(target=work) for _ in range(4 if sys.version_info >= (3, 12) else 1)]
        for it in threads:
            it.start()
        exec(self.CODE, {})  # and here meanwhile
        for it in threads:
            it.join()
        self.assertFalse(raised)

    def test_what_is_made_here_stays(self):
        import noddychest

        create, run, destroy = FOUND
        kinds, run_here = noddychest.FaultKind, iter(noddychest.pieces(b"ab\xff"))
        part_here = noddychest.Decoder().feed_faults(b"ab\xff")
        it = create()
        run(it, self.CODE)
        destroy(it)
        self.assertEqual([piece.error for piece in run_here], [None, None, kinds.NON_UTF8_BYTE])
        self.assertEqual([piece.error for piece in part_here], [kinds.NON_UTF8_BYTE])


if __name__ == "__main__":
    unittest.main()
