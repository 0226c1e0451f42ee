#!/usr/bin/env python3
"""tests/c_page.py WORDS..: compiles and runs the C and C++ of docs/USING.md, with the words for the header and the
library. A block with no main is the body of one, which gives the answer; what follows a block as 'It prints `..`' is
what it prints."""
import pathlib
import re
import subprocess
import sys
import tempfile

PAGE = pathlib.Path(__file__).resolve().parent.parent / 'docs/USING.md'
COMPILERS = {'c': ['gcc', '-std=c99'], 'cpp': ['g++', '-std=c++20']}
STRICT = ['-Wall', '-Wextra', '-Wpedantic', '-Werror']

found = re.findall(r'^```(c|cpp)\n(.*?)^```\n(?:It prints `(.*?)`)?', PAGE.read_text(encoding='utf8'), re.M | re.S)
languages = [language for language, _, _ in found]
assert languages.count('c') > 1 and languages.count('cpp') > 0, languages
with tempfile.TemporaryDirectory() as folder:
    for language, code, printed in found:
        if 'main(' not in code:
            code = f'#include <bay_market.h>\n\nint main(void)\n{{\n{code}return answer;\n}}\n'
        source, program = f'{folder}/page.{language}', f'{folder}/page'
        pathlib.Path(source).write_text(code, encoding='utf8')
        subprocess.run([*COMPILERS[language], *STRICT, source, *sys.argv[1:], '-o', program], check=True)
        done = subprocess.run([program], capture_output=True, text=True, check=False)
        if done.returncode or done.stdout != (f'{printed}\n' if printed else ''):
            sys.exit(f'docs/USING.md: answers {done.returncode}, prints {done.stdout!r}:\n{code}')
print(f'{len(found)} programs of docs/USING.md: as expected')
