"""The examples of every module and of docs/PYTHON.md, and that every public function has one."""
import contextlib
import doctest
import importlib
import inspect
import os
import pkgutil
import re
import unittest
from pathlib import Path

import bay_market

ROOT = Path(__file__).resolve().parents[2]
SHOWN_BY_HELP = 'bay_market.commands'           # commands are shown by their help, whose examples are run


def modules():
    yield bay_market
    for found in pkgutil.walk_packages(bay_market.__path__, 'bay_market.'):
        if not found.name.endswith('__main__'):
            yield importlib.import_module(found.name)


def public(module):
    """Functions, methods and properties of a module that it defines itself, by their names."""
    for name, value in vars(module).items():
        if name.startswith('_') or getattr(value, '__module__', None) != module.__name__:
            continue
        if inspect.isclass(value):
            for inner, member in vars(value).items():
                if not inner.startswith('_') and (callable(member) or isinstance(member, (property, classmethod))):
                    yield f'{module.__name__}.{name}.{inner}', inspect.getdoc(getattr(value, inner)) or ''
        elif inspect.isfunction(value) or hasattr(value, '__wrapped__'):
            yield f'{module.__name__}.{name}', inspect.getdoc(value) or ''


@contextlib.contextmanager
def in_folder(folder):
    before = os.getcwd()
    os.chdir(folder)
    try:
        yield
    finally:
        os.chdir(before)


class Doctests(unittest.TestCase):
    def test_all(self):
        tried = 0
        for module in modules():
            with self.subTest(module.__name__):
                result = doctest.testmod(module, optionflags=doctest.ELLIPSIS)
                self.assertEqual(result.failed, 0)
                tried += result.attempted
        print(f'{tried} lines of doctests')

    def test_page(self):
        page = (ROOT / 'docs/PYTHON.md').read_text(encoding='utf8')
        blocks = re.findall(r'^```python\n(.*?)^```$', page, re.M | re.S)
        test = doctest.DocTestParser().get_doctest('\n'.join(blocks), {}, 'PYTHON.md', 'docs/PYTHON.md', 0)
        self.assertGreater(len(test.examples), 30)
        with in_folder(ROOT):
            self.assertEqual(doctest.DocTestRunner().run(test).failed, 0)

    def test_every_public_function_has_one(self):
        without = [name for module in modules() if not module.__name__.startswith(SHOWN_BY_HELP)
                   for name, text in public(module) if '>>>' not in text]
        self.assertEqual(without, [])


if __name__ == '__main__':
    unittest.main()
