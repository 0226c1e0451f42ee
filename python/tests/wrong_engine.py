"""A library of which one answer is wrong, made of the shipped one."""
import subprocess

from .bay import ROOT

PREBUILT = ROOT / 'prebuilt/x86_64-linux'
SOURCE = ROOT / 'python/tests/wrong_answers.c'


def wrong_engine(folder, function, by=1):
    """Makes the library whose answer of a function is wrong, and gives its path."""
    work, name = folder / f'wrong-{function}{by}', f'bay_market_{function}'
    work.mkdir()
    library = work / 'libbay_market.so'
    for words in (['ar', 'x', PREBUILT / 'libbay_market.a'],
                  ['objcopy', '--redefine-sym', f'{name}=real_{name}', 'bay_market.o'],
                  ['gcc', '-shared', '-fPIC', '-O1', '-Wall', '-Wextra', '-Werror', f'-DWRONG_{function.upper()}={by}',
                   f'-I{ROOT}/include', f'-I{ROOT}/tests', SOURCE, 'bay_market.o', '-o', library]):
        subprocess.run(words, cwd=work, check=True, timeout=120)
    return str(library)
