"""bay completion, bay help: both from the parsers themselves."""
from __future__ import annotations

from argparse import Namespace
from typing import Dict, List

from .output import out
from .parser import COMMANDS, named, overview

# files are completed by the shell, where no word of ours fits
SCRIPT = '''_bay() {{
    local word=${{COMP_WORDS[COMP_CWORD]}} words=
    COMPREPLY=()
    if [ "$COMP_CWORD" = 1 ]; then
        words="{names} --help --version"
    else
        case ${{COMP_WORDS[1]}}:${{COMP_WORDS[COMP_CWORD - 1]}} in
{values}        *)
            [[ $word == -* ]] || return
            case "${{COMP_WORDS[1]}} ${{COMP_WORDS[2]-}} " in
{options}            esac
            ;;
        esac
    fi
    mapfile -t COMPREPLY < <(compgen -W "$words" -- "$word")
}}
complete -o default -F _bay bay
'''


def do_completion(args: Namespace) -> int:
    """Completion for bash. Of a command of two words the second is offered after the first."""
    firsts: Dict[str, List[str]] = {}
    for name in COMMANDS:
        first, *second = name.split()
        firsts.setdefault(first, []).extend(second)
    options: Dict[str, List[str]] = {}
    values = [f'        help:help) words="{" ".join(firsts)}" ;;\n', '        *:--rule) words="1 2" ;;\n']
    values += [f'        {first}:{first}|help:{first}) words="{" ".join(seconds)}" ;;\n'
               for first, seconds in firsts.items() if seconds]
    for name, command in COMMANDS.items():
        actions = command.parser()._actions
        options[name] = [option for action in actions for option in action.option_strings if option.startswith('--')]
        chosen = [(action.option_strings[0], ' '.join(map(str, action.choices))) for action in actions
                  if action.choices and action.option_strings]
        values += [f'        {name.split()[0]}:{option}) words="{words}" ;;\n' for option, words in chosen]
    longest_first = sorted(options, key=lambda name: -len(name.split()))
    cases = (f'            "{name} "*) words="{" ".join(options[name])}" ;;\n' for name in longest_first)
    out(SCRIPT.format(names=' '.join(firsts), values=''.join(values), options=''.join(cases)))
    return 0


def do_help(args: Namespace) -> int:
    """A command's help, or that of all."""
    if not args.about:
        out(overview())
    else:
        named(args.about).parser().print_help()
    return 0
