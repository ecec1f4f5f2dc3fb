"""CPython's own tests of its codecs for UTF-8 and UTF-16, over these. They come from the interpreter that runs this."""
import unittest
from unittest import mock

import noddychest  # noqa: F401 (registers the codecs)

try:
    from test import test_codecs as theirs
except ImportError:
    theirs = None

if theirs is None:

    class Missing(unittest.TestCase):
        def test_missing(self):
            self.skipTest("the interpreter has no test.test_codecs; Debian has it in libpython3.11-testsuite")

else:

    class Utf8(theirs.UTF8Test):
        encoding = "noddychest-utf8"

    class Utf16le(theirs.UTF16LETest):
        encoding = "noddychest-utf16le"

    class Utf16be(theirs.UTF16BETest):
        encoding = "noddychest-utf16be"

    class Basics(theirs.BasicUnicodeTest):
        """What every codec of text has to do."""

        def setUp(self):
            names = mock.patch.object(theirs, "all_unicode_encodings", ["noddychest-utf8", "noddychest-utf16le", "noddychest-utf16be"])
            names.start()
            self.addCleanup(names.stop)


if __name__ == "__main__":
    unittest.main()
