"""Where the library is looked for. These tests load nothing of it."""

import os
import tempfile
import unittest
from pathlib import Path
from unittest import mock

from bradovusc import LibraryMissing, _library


class Found(unittest.TestCase):
    def setUp(self):
        folder = tempfile.TemporaryDirectory()
        self.addCleanup(folder.cleanup)
        self.top = Path(folder.name)
        self.package = self.top / "lib/python3/site-packages/bradovusc"
        self.package.mkdir(parents=True)
        self.patch(mock.patch.dict(os.environ))
        os.environ.pop(_library.VARIABLE, None)
        self.patch(mock.patch("ctypes.util.find_library", return_value=None))

    def patch(self, patcher):
        patcher.start()
        self.addCleanup(patcher.stop)

    def candidates(self):
        return list(_library.candidates(self.package))

    def test_the_name_alone(self):
        self.assertEqual(self.candidates(), [_library.SONAME])
        self.assertRegex(_library.SONAME, r"^libbradovusc\.so\.[0-9]+\.[0-9]+$")

    def test_by_the_variable_and_nothing_else(self):
        (self.package / _library.SONAME).touch()
        os.environ[_library.VARIABLE] = "/somewhere/lib.so"
        self.assertEqual(self.candidates(), ["/somewhere/lib.so"])

    def test_in_the_package_then_in_lib(self):
        files = [self.package / _library.SONAME, self.package / "libbradovusc.so", self.top / "lib" / _library.SONAME]
        for file in files:
            file.touch()
        (self.top / _library.SONAME).touch()
        self.assertEqual(self.candidates(), [*map(str, files), _library.SONAME])

    def test_by_find_library_at_last(self):
        self.patch(mock.patch("ctypes.util.find_library", return_value="libbradovusc.so.0.9"))
        self.assertEqual(self.candidates(), [_library.SONAME, "libbradovusc.so.0.9"])

    def test_none(self):
        missing = str(self.top / "none.so")
        with self.assertRaises(LibraryMissing) as raised:
            _library.load(missing)
        self.assertIn(missing, str(raised.exception))
        os.environ[_library.VARIABLE] = missing
        _library._found.cache_clear()
        self.addCleanup(_library._found.cache_clear)
        with self.assertRaises(LibraryMissing) as raised:
            _library.library()
        self.assertIn(_library.VARIABLE, str(raised.exception))

    def test_another_library(self):
        with mock.patch("ctypes.CDLL", return_value=object()), self.assertRaises(LibraryMissing) as raised:
            _library.load("libother.so")
        self.assertIn("libother.so has no function bradovusc_clash", str(raised.exception))


if __name__ == "__main__":
    unittest.main()
