"""The command `bay`. Standard output has the answer, standard error what a person should know besides.

`main` runs it and has what every command shares: its end, its signals, its refusals. `parser` has the words of the
command line, `files` what is read and written, `output` what is printed, `refusing` the reason of a refusal. The
commands stand in groups: `clearing`, `forms`, `trying`, `searching`, `marking`, `course`, `drawing`, `post`, `book`,
`completing`; a group is imported when it is asked for. `books` has what the commands of a book share, `progress` the
bar of a long command, `signals` its end by Ctrl-C."""
from .main import main

__all__ = ['main']
