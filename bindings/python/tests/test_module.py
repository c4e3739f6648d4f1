"""What the package exports, its texts and types, its command, and that interpreters and abstract classes can use it."""

import abc
import ast
import collections.abc
import ctypes
import doctest
import importlib
import inspect
import re
import subprocess
import sys
import unittest
from concurrent.futures import ThreadPoolExecutor
from pathlib import Path

import verified_multihash as vm
from test_arguments import NAMED_CALLS
from test_vectors import DATA
from verified_multihash import Multihash, cid, hashes

README = Path(__file__).resolve().parents[1] / "README.md"
HEX = "1620644bcc7e564373040999aac89e7622f3ca71fba1d972fd94a31c3bfbf24e3938"
SHOWN = "code 22\nsize 32\ndigest %s\n" % HEX[4:]
# in the repository, or beside this file in an sdist
ROWS = next(path for path in (DATA / "../../mh_show/rows.tsv", DATA / "rows.tsv") if path.exists())
# What an interpreter runs: it calls the package, loads it again, drops it, and looks for what is kept.
PROGRAM = """
import sys; sys.path[:] = %r
import gc, importlib, io, verified_multihash as vm
for n in range(20000): assert vm.decode(vm.encode(n, b'abc')) == vm.Multihash(n, b'abc')
vm._core.kept = vm.MultihashReader(io.BytesIO())
importlib.reload(vm)
try: vm.decode(b'')
except vm.MultihashError as error: assert error.is_incomplete
del vm
for name in [*sys.modules]: name.startswith('verified') and sys.modules.pop(name)
gc.collect()
names = {it.__name__ for it in [*gc.get_objects()] if isinstance(it, type)}
assert not names & {'Multihash', 'MultihashError', 'Status'}, 'a module that is not used is kept'
"""


def parameters_of(call):
    return inspect.signature(call).parameters


class Module(unittest.TestCase):
    def test_interpreters(self):
        """Two at once, from CPython 3.12 on with locks of their own."""
        interpreters = importlib.import_module("_interpreters" if sys.version_info > (3, 13) else "_xxsubinterpreters")

        def run(_):
            number = interpreters.create()
            result = interpreters.run_string(number, PROGRAM % (sys.path,))
            interpreters.destroy(number)
            return result

        with ThreadPoolExecutor(2) as threads:
            self.assertEqual(list(threads.map(run, range(2))), [None, None])

    def test_abstract_classes(self):
        """An abstract class may be a base too: for that the types have a flag."""
        for kind in (Multihash, vm._core.Reader):
            self.assertTrue(kind.__flags__ & 1 << 18, "Py_TPFLAGS_HAVE_VERSION_TAG")
        for kind in (Multihash, vm.MultihashReader, vm.AsyncMultihashReader):
            subclass = type("Own", (kind, collections.abc.Sized), {"__len__": id})
            self.assertTrue(issubclass(subclass, collections.abc.Sized))
            self.assertFalse(issubclass(abc.ABCMeta("Other", (), {}), subclass))

    def test_exports(self):
        module = ctypes.CDLL(vm._core.__file__)
        names = "PyInit__core", "multihash_read", "get_input"
        self.assertEqual([hasattr(module, name) for name in names], [True, False, False])

    def test_names(self):
        """All that is public is exported and has a text. Pickled values name the module."""
        self.assertEqual({each.__module__ for each in (Multihash, vm.MultihashError, vm.Status)}, {vm.__name__})
        for module in (vm, hashes, cid):
            called = [it for it in map(vars(module).get, module.__all__) if callable(it)]
            self.assertEqual([it for it in called if not it.__doc__], [])
            names = {name for name, it in vars(module).items() if getattr(it, "__module__", "") == module.__name__}
            self.assertLessEqual({name for name in names if name[0] != "_"}, {*module.__all__})

    def test_stub(self):
        """Editors show the texts of the stub, and help those of the module."""
        owners = vm._core, Multihash, vm._core.Reader, vm._core.FileReader
        texts = {inspect.getdoc(each) for owner in owners for each in vars(owner).values()}
        stub = ast.walk(ast.parse(Path(vm._core.__file__).with_name("_core.pyi").read_text("utf-8")))
        shown = {ast.get_docstring(node) for node in stub if isinstance(node, (ast.ClassDef, ast.FunctionDef))}
        self.assertLessEqual(shown, texts)

    def test_parameters(self):
        """Each has the name that it shows. CPython's parser rejects too few, too many, and others."""
        self.assertEqual(Multihash.__match_args__, tuple(parameters_of(Multihash)))
        for call, arguments in NAMED_CALLS.items():
            names = list(parameters_of(call))
            by_name, by_position = call(**dict(zip(names, arguments))), call(*arguments)
            self.assertEqual((str(by_name), len(names)), (str(by_position), len(arguments)))
            self.assertEqual(getattr(parameters_of(call).get("limit"), "default", vm.DIGEST_MAX), vm.DIGEST_MAX)
            for wrong, more in (([*arguments, 1], {}), ([], {}), (arguments, {"more": 1})):
                with self.assertRaisesRegex(TypeError, r"\b(__init__|%s)\(" % call.__name__):
                    call(*wrong, **more) if more else call(*wrong)  # assertRaises passes keywords on, if only {}

    def test_tables(self):
        """The tables of README.md show the parameters of each function, with defaults."""
        tables = re.findall(r"^\| Name(?:.*\|\n)+", README.read_text("utf-8"), re.M)
        shown = re.findall(r"`(\w+)\((.*?)\)", "".join(tables))
        self.assertGreater(len(shown), 9)
        for name, wanted in shown:
            call = next(vars(it)[name] for it in (vm, hashes, hashes.Hasher) if name in vars(it))
            parameters = [it.replace(annotation=it.empty) for it in inspect.signature(call).parameters.values()]
            self.assertEqual(wanted, ", ".join(str(it) for it in parameters if it.name != "self"))

    def test_examples(self):
        text = "\n".join("" if line.startswith("```") else line for line in README.read_text("utf-8").splitlines())
        test = doctest.DocTestParser().get_doctest(text, {}, "README.md", str(README), 0)
        failed, tried = doctest.DocTestRunner().run(test)
        self.assertEqual((failed, tried > 0), (0, True))


def rows():
    """The input, the standard output, the reason and the status of each line of rows.tsv."""
    for line in ROWS.read_text("utf-8").splitlines():
        if not line.startswith("#"):
            line = re.sub(r"\{(\w+)\*(\d+)\}", lambda match: match.group(1) * int(match.group(2)), line)
            yield line.replace(r"\n", "\n").replace(r"\r", "\r").split("\t")


def run(*words, **options):
    """The status, and what was printed to both outputs."""
    defaults = {"input": "", "stdout": subprocess.PIPE, "stderr": subprocess.PIPE, "errors": "surrogateescape"}
    command = [sys.executable, "-m", "verified_multihash", *words]
    process = subprocess.run(command, encoding="utf-8", check=False, **{**defaults, **options})
    return process.returncode, process.stdout or "", process.stderr or ""


def failed(reason):
    return 1, "", "python -m verified_multihash: %s\n" % reason


class Main(unittest.TestCase):
    def test_rows(self):
        for text, output, reason, status in rows():
            with self.subTest(text=text[:80]):
                result = run(input=text)
                self.assertEqual(result[:2], (int(status), output))
                self.assertEqual(result[2].startswith("python -m verified_multihash: "), reason != "")

    def test_arguments(self):
        for text in (HEX, HEX.upper(), HEX + "\n"):
            self.assertEqual(run(text, input="zz"), (0, SHOWN, ""))
        self.assertEqual(run("1205", input=HEX), failed("the input ends before the digest (0 of 5 bytes)"))
        self.assertEqual(run("", input=HEX), failed("the input is empty"))
        for words, text in (("\udcff",), HEX), ((), "\udcff"):  # a byte that is not UTF-8
            self.assertEqual(run(*words, input=text), failed("not hexadecimal"))
        self.assertRegex(run(HEX, HEX)[2], r"\[HEX\]")

    def test_help(self):
        for word in ("-h", "--help"):
            status, page, reason = run(word, input=HEX)
            self.assertEqual((status, "mh_show" in page, reason), (0, True, ""))

    def test_streams(self):
        """An input without an end, and outputs that are full."""
        with open("/dev/zero", "rb") as endless, open("/dev/full", "wb") as full:
            self.assertEqual(run(input=None, stdin=endless), failed("input not read"))
            self.assertEqual(run(HEX, stdout=full), failed("output not written"))
            self.assertEqual(run(HEX, stderr=full), (0, SHOWN, ""))
            self.assertEqual(run("zz", stderr=full), (1, "", ""))
