"""The installed shared library, called from Python: a file checked, turned and run. Prints what comes out."""

import ctypes
import sys


class Check(ctypes.Structure):
    _fields_ = [("number", ctypes.c_uint32), ("line", ctypes.c_size_t)]


class Turn(ctypes.Structure):
    _fields_ = [("number", ctypes.c_uint32), ("line", ctypes.c_size_t), ("length", ctypes.c_size_t)]


class Run(ctypes.Structure):
    _fields_ = [("number", ctypes.c_uint32), ("count", ctypes.c_uint32), ("length", ctypes.c_size_t)]


library = ctypes.CDLL(sys.argv[1])
library.rulefile_check.restype = Check
library.rulefile_turn.restype = Turn
library.rulefile_run.restype = Run
library.rulefile_version.restype = library.rulefile_word.restype = ctypes.c_char_p
size = ctypes.c_size_t


def area(kind, length):
    lent = (kind * length)()
    return lent, size(length)


def lent(file):
    return (file, size(len(file)), *area(ctypes.c_uint16, 20480), *area(ctypes.c_uint8, 65536))


file = open(sys.argv[2], "rb").read()
answer = library.rulefile_check(*lent(file))
print(answer.number, answer.line, library.rulefile_word(answer.number).decode())
answer = library.rulefile_check(*lent(file + b"x"))
print(answer.number, answer.line, library.rulefile_word(answer.number).decode())
output, length = area(ctypes.c_uint8, len(file))
turned = library.rulefile_turn(*lent(file), output, length)
back = bytes(output[: turned.length])
result, length = area(ctypes.c_uint8, 127)
ran = library.rulefile_run(*lent(back), ctypes.c_uint32(1), False, ctypes.c_uint32(9), b"PPRULURU", size(8), result, length)
print(ran.number, ran.count, bytes(result[: ran.length]).decode())
print(library.rulefile_version().decode())
