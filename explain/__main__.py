"""Prints what a refusal means.

usage: python3 explain REASON LINE COLUMN <DESCRIPTION

`./alphabet` asks for this. No promise rests on it: what a program reads is the
text that the proved program prints, and this changes nothing of that."""

import sys

from message import message

print(message(sys.stdin.buffer.read(), *map(int, sys.argv[1:])), end="")
