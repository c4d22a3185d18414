"""Commands are told from descriptions, and blocks from each other."""

import unittest

from support.commands import blocks, is_command


class Commands(unittest.TestCase):
    def test_blocks(self):
        self.assertEqual(blocks("a\n\n    one\n    two\n\nb\n    three"), [["one", "two"], ["three"]])

    def test_a_picture_is_no_block(self):
        self.assertEqual(blocks("```\n    a -> b\n```\n    one"), [["one"]])

    def test_descriptions_are_no_commands(self):
        self.assertFalse(is_command("names=2"))
        self.assertTrue(is_command("./alphabet <examples/stripe-15-of-16.txt"))
        self.assertTrue(is_command("cc -Iinclude examples/call.c -o target/call"))


if __name__ == "__main__":
    unittest.main()
