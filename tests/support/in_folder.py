"""Tests of what reads files: each has a folder of its own."""

import pathlib
import tempfile
import unittest


class InFolder(unittest.TestCase):
    """A test with an empty folder, `self.top`, and others below it on demand."""

    def setUp(self):
        folder = tempfile.TemporaryDirectory()
        self.addCleanup(folder.cleanup)
        self.top = pathlib.Path(folder.name)

    def make_folders(self, *names):
        for name in names:
            (self.top / name).mkdir(parents=True)
