"""What `help` shows: every example in it runs, and nothing public is without words."""

import doctest
import importlib
import inspect
import os
import pkgutil
import re
import subprocess
import sys
import textwrap
import unittest

import tulonkasa
from tests.support import ROOT

NAMES = [found.name for found in pkgutil.iter_modules(tulonkasa.__path__) if found.name != "__main__"]
MODULES = [tulonkasa, *(importlib.import_module(f"tulonkasa.{name}") for name in NAMES)]


def own_classes(module):
    return [thing for _, thing in inspect.getmembers(module, inspect.isclass) if thing.__module__ == module.__name__]


def own_functions(module):
    """The functions, methods and properties that a module declares."""
    for name, thing in inspect.getmembers(module, inspect.isfunction):
        if thing.__module__ == module.__name__:
            yield name, thing
    for kind in own_classes(module):
        for name, thing in vars(kind).items():
            thing = getattr(thing, "fget", None) or getattr(thing, "__func__", thing)
            if inspect.isfunction(thing) and thing.__module__ == module.__name__:
                yield f"{kind.__name__}.{name}", thing


class Documents(unittest.TestCase):
    def test_examples(self):
        for module in MODULES:
            with self.subTest(module.__name__):
                self.assertEqual(doctest.testmod(module).failed, 0)
        self.assertGreater(sum(doctest.testmod(module).attempted for module in MODULES), 80)

    def test_everything_has_words(self):
        for module in MODULES:
            self.assertTrue(module.__doc__, module.__name__)
            for kind in own_classes(module):
                self.assertTrue(kind.__doc__ and not kind.__doc__.startswith(f"{kind.__name__}("), kind)
            for name, function in own_functions(module):
                if not name.split(".")[-1].startswith("_"):
                    self.assertTrue(function.__doc__, f"{module.__name__}.{name}")

    def test_everything_has_types(self):
        for module in MODULES:
            for name, function in own_functions(module):
                if function.__code__.co_filename == module.__file__:
                    parameters = [part for part in inspect.signature(function).parameters if part not in ("self", "cls")]
                    self.assertLessEqual({*parameters, "return"}, set(function.__annotations__), f"{module.__name__}.{name}")

    def test_the_first_examples(self):
        """The package's own, and the one of host/README.md, on the sample capture."""
        readme = (ROOT / "host" / "README.md").read_text().split("\nWhich records of a capture share a key:\n")[1]
        own = tulonkasa.__doc__.split("share a key:\n")[1].replace('"capture.bin"', '"samples/capture.bin"')
        for text in (readme, own):
            code = textwrap.dedent(re.match(r"(?:\n|    .*\n)+", text)[0])
            done = subprocess.run(
                [sys.executable, "-c", code],
                cwd=ROOT,
                env={**os.environ, "PYTHONPATH": str(ROOT / "host" / "python")},
                capture_output=True,
                text=True,
                check=True,
            )
            named = [line for line in done.stdout.splitlines() if re.match(r"[0-9a-f]{64} [0-9]+ ", line)]
            self.assertGreater(len(named), 100)
            self.assertGreater(len(done.stdout.splitlines()), len(named))

    def test_what_is_exported(self):
        self.assertEqual(sorted(tulonkasa.__all__), tulonkasa.__all__)
        for name in tulonkasa.__all__:
            self.assertTrue(hasattr(tulonkasa, name), name)
        public = {name for name, thing in vars(tulonkasa).items() if not name.startswith("_") and not inspect.ismodule(thing)}
        self.assertEqual(public, set(tulonkasa.__all__))
