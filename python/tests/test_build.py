"""What the build asks pip for: nothing where setuptools is there, and before 70.1 wheel."""
import importlib.metadata
import os
import runpy
import sys
import types
import unittest
from unittest import mock

import outside

BACKEND = os.path.join(outside.TOP, "python", "build_backend.py")


@unittest.skipUnless(os.path.exists(BACKEND), "the build is in the repository")
class Backend(unittest.TestCase):
    def asked(self, **versions):
        def distributions(name, path):
            return [types.SimpleNamespace(version=versions[name])] if name in versions and path == ["/there"] else []

        with mock.patch.object(importlib.metadata, "distributions", distributions), mock.patch.object(sys, "path", ["/there", *sys.path]):
            return runpy.run_path(BACKEND)["get_requires_for_build_wheel"]()

    def test_asks_for_what_is_not_there(self):
        all_of_it = ["setuptools>=61", "wheel"]
        self.assertEqual(self.asked(setuptools="70.1.0"), [])
        self.assertEqual(self.asked(setuptools="80.9"), [])
        self.assertEqual(self.asked(setuptools="66.1.1", wheel="0.38.4"), [])
        self.assertEqual(self.asked(setuptools="70.0.0"), all_of_it)
        self.assertEqual(self.asked(setuptools="66.1.1"), all_of_it)
        self.assertEqual(self.asked(setuptools="59.6.0", wheel="0.38.4"), all_of_it)
        self.assertEqual(self.asked(wheel="0.38.4"), all_of_it)
        self.assertEqual(self.asked(), all_of_it)


if __name__ == "__main__":
    unittest.main()
