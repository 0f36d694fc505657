#!/usr/bin/env python3
"""jam.py: what jam.c says, from Python over the shared library. usage: jam.py LIBRARY < SHEET"""
import ctypes
import sys

TEXT_BYTES, SCRATCH_WORDS, TRACE_BYTES = 8192, 4096, 1536
EAGER_FREE_RUNNING = 0
REFUSALS = ["", "channel", "bench", "length", "heading", "row", "place", "absent", "depth", "calls", "messages", "circle"]
STEPS = ["send", "deliver", "consume"]


class Answer(ctypes.Structure):
    _fields_ = [(name, ctypes.c_uint32) for name in ("word", "one", "two", "three")]


library = ctypes.CDLL(sys.argv[1])
library.channel_check.restype = Answer
library.channel_check.argtypes = [ctypes.c_char_p, ctypes.c_size_t, ctypes.c_uint32, ctypes.c_void_p, ctypes.c_size_t, ctypes.c_void_p, ctypes.c_size_t]

text = sys.stdin.buffer.read(TEXT_BYTES + 1)
scratch, trace = (ctypes.c_uint64 * SCRATCH_WORDS)(), (ctypes.c_uint8 * TRACE_BYTES)()
a = library.channel_check(text, len(text), EAGER_FREE_RUNNING, scratch, SCRATCH_WORDS, trace, TRACE_BYTES)
if a.word == 0:
    print("free")
elif a.word == 1:
    print(f"locked: message {a.one} races with event {a.two}")
else:
    print(f"refused: {REFUSALS[a.one]}, line {a.two}")
for i in range(a.three):
    print(STEPS[trace[2 * i]], trace[2 * i + 1])
sys.exit(a.word)
