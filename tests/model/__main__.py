"""The model as a program: python3 tests/model WORD.. < CAPTURE"""
import os
import sys

sys.dont_write_bytecode = True
sys.path[0] = os.path.dirname(os.path.dirname(os.path.realpath(__file__)))
import model

words = [os.fsencode(word) for word in sys.argv[1:]]
found = model.answer(words)
if found.status in (2, 8):
    # Without a capture or a stream no other call ends so. It is read only now, since `load` and refused words read nothing.
    found = model.answer(words, sys.stdin.buffer.read())
sys.stdout.buffer.write(found.out)
sys.stderr.buffer.write(found.err)
sys.exit(found.status)
