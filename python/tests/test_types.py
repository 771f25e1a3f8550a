"""Tests of the package's types of the library's calls: those of the headers."""
import ctypes
import re
import unittest
from pathlib import Path

from gerfmuod import _library

HEADERS = Path(__file__).resolve().parents[2] / "capi" / "include" / "gerfmuod"
NAMES = ("team", "graph", "process", "refusals")
TEXT = re.sub(r"/\*.*?\*/", "", "".join((HEADERS / f"{name}.h").read_text() for name in NAMES), flags=re.S)
PROTOTYPE = re.compile(r"^([\w ]+?[ *]+)(gerfmuod_\w+)\(([^()]*(?:\([^()]*\)[^()]*)*)\);", re.M)
NUMBERS = {"uint32_t": ctypes.c_uint32, "uint64_t": ctypes.c_uint64, "size_t": ctypes.c_size_t, "void": None}
NUMBERS["gerfmuod_graph_result"] = _library.GraphResult


def is_of(type_in_c, type_in_python):
    """Whether a type of Python is the one of a parameter or a result in C: a pointer, or the number of the same size."""
    if "*" in type_in_c or re.search(r"\bgerfmuod_team_(body|attach)\b", type_in_c):
        return type_in_python in (ctypes.c_void_p, ctypes.c_char_p) or issubclass(type_in_python, ctypes._Pointer)
    return type_in_python is NUMBERS[re.sub(r"\b(const|GERFMUOD_CHECKED)\b", "", type_in_c).split()[0]]


class Types(unittest.TestCase):
    def test_types_are_those_of_the_headers(self):
        found = {name: (result, parameters) for result, name, parameters in PROTOTYPE.findall(TEXT)}
        calls = {name for name in re.findall(r'"(gerfmuod_\w+)": \(', Path(_library.__file__).read_text())}
        self.assertLess(20, len(calls))
        for name in calls:
            with self.subTest(name):
                result, parameters = found[name]
                function = getattr(_library.library, name)
                self.assertTrue(is_of(result, function.restype), result)
                self.assertEqual(len(function.argtypes), parameters.count(",") + 1)
                for in_c, in_python in zip(parameters.split(","), function.argtypes):
                    self.assertTrue(is_of(in_c, in_python), in_c)

    def test_constants_are_those_of_the_headers(self):
        numbers = dict(re.findall(r"\bGERFMUOD_(\w+) = (\d+)", TEXT))
        names = {"READ": "READ", "WRITE": "WRITE", "UPDATE": "UPDATE", "RUN": "GRAPH_RUN", "NOT_STARTED": "REFUSED_NOT_STARTED"}
        for name, in_c in names.items():
            self.assertEqual(getattr(_library, name), int(numbers[in_c]), name)
        for of_c, of_python in ("graph_result", _library.GraphResult), ("access", _library.Access):
            size, = re.findall(rf"sizeof\(gerfmuod_{of_c}\) == (\d+)", TEXT)
            self.assertEqual(ctypes.sizeof(of_python), int(size))


if __name__ == "__main__":
    unittest.main()
