"""Completion for bash and zsh, from the table of forms and options."""

import re
from pathlib import Path

from .table import Option, Program

CHOICES = {"PROFILE": "1 2"}
FOLDERS = {"FOLDER"}
FILES = {"FILE", "LEDGER", "PATH", "NEW", "PROGRAM"}


def flags(options: list[Option]) -> list[str]:
    return [flag for it in options for flag in it.flags]


def valued(options: list[Option], of: set[str]) -> list[str]:
    """Flags whose value is of one of these kinds."""
    return [flag for it in options if it.value in of for flag in it.flags]


def own_options(program: Program, form: str) -> list[Option]:
    """The options after a form's word, or before any."""
    named = [it for it in program.forms if it.name()]
    if form:
        return [o for it in named if it.name() == form for o in it.options]
    return program.options


def all_options(program: Program) -> list[Option]:
    return program.options + [o for it in program.forms for o in it.options]


def bash_case(patterns: list[str], body: str) -> str:
    return f"    {'|'.join(sorted(set(patterns)))}) {body} ;;\n" if patterns else ""


def bash(program: Program) -> str:
    """The function that bash calls for a program's words."""
    forms = [it.name() for it in program.forms if it.name()]
    name = f"_{program.name.replace('-', '_')}"
    every = all_options(program)
    kinds = {tuple(valued(every, {kind})): words for kind, words in CHOICES.items()}
    values = "".join(
        bash_case(list(found), f'COMPREPLY=($(compgen -W "{words}" -- "$word")); return')
        for found, words in kinds.items()
    )
    values += bash_case(
        valued(every, FOLDERS), 'compopt -o dirnames; COMPREPLY=($(compgen -d -- "$word")); return'
    )
    values += bash_case(
        valued(every, FILES), 'compopt -o filenames; COMPREPLY=($(compgen -f -- "$word")); return'
    )
    other = {it.value for it in every if it.value} - FILES - FOLDERS - set(CHOICES)
    values += bash_case(valued(every, other), "return")
    cases = "".join(
        f'    {it}) options="{" ".join(flags(own_options(program, it)))}" ;;\n' for it in forms
    )
    cases += f'    *) options="{" ".join(flags(program.options))}" ;;\n'
    first = f'forms="{" ".join(forms)}"'
    return f"""# bash completion of {program.name}, made from the table of forms and options

{name}()
{{
    local word=${{COMP_WORDS[COMP_CWORD]}} before=${{COMP_WORDS[COMP_CWORD-1]}} form="" options it
    local {first}
    for it in "${{COMP_WORDS[@]:1:COMP_CWORD-1}}"; do
        [[ -n $it && " $forms " == *" $it "* ]] && form=$it && break
    done
    case $before in
{values}    esac
    case $form in
{cases}    esac
    if [[ $word == -* ]]; then
        COMPREPLY=($(compgen -W "$options" -- "$word"))
    elif [[ -n $forms && -z $form && $COMP_CWORD -eq 1 ]]; then
        COMPREPLY=($(compgen -W "$forms" -- "$word"))
    fi
}}
complete -o bashdefault -o default -F {name} {program.name}
"""


def quoted(text: str) -> str:
    """Text inside a zsh specification in single quotes."""
    short = " ".join(text.split())
    return re.sub(r"([\[\]:\\])", r"\\\1", short).replace("'", "'\\''")


def zsh_value(value: str) -> str:
    if value in CHOICES:
        return f":{value}:({CHOICES[value]})"
    if value in FOLDERS:
        return f":{value}:_files -/"
    return f":{value}:_files" if value in FILES else f":{value}: " if value else ""


def zsh_option(it: Option) -> list[str]:
    return [f"'*{flag}[{quoted(it.text)}]{zsh_value(it.value)}'" for flag in it.flags]


def zsh_arguments(options: list[Option], rest: str, indent: str) -> str:
    rows = [row for it in options for row in zsh_option(it)] + [rest]
    return f"{indent}_arguments -s \\\n" + " \\\n".join(f"{indent}    {it}" for it in rows) + "\n"


def zsh(program: Program) -> str:
    """The function that zsh calls for a program's words."""
    forms = [it for it in program.forms if it.name()]
    text = f"#compdef {program.name}\n# made from the table of forms and options\n\n"
    if not forms:
        return text + zsh_arguments(program.options, "'*:word:_files'", "")
    rows = " ".join(f"'{it.name()}:{quoted(it.text or it.words)}'" for it in forms)
    text += f"local -a forms\nlocal state line\nforms=({rows})\n\n"
    options = [row for it in program.options for row in zsh_option(it)]
    rest = ["'1:form:->form'", "'*::word:->rest'"]
    text += "_arguments -C \\\n" + " \\\n".join(f"    {it}" for it in options + rest) + "\n\n"
    text += "case $state in\nform)\n    _describe form forms\n    _files\n    ;;\n"
    text += "rest)\n    case $line[1] in\n"
    for it in forms:
        text += f"    {it.name()})\n" + zsh_arguments(it.options, "'*:word:_files'", " " * 8)
        text += "        ;;\n"
    return text + "    *)\n        _files\n        ;;\n    esac\n    ;;\nesac\n"


def write(programs: dict[str, Program], folder: Path) -> None:
    """Writes both kinds of each program: bash/NAME and zsh/_NAME."""
    for kind in ("bash", "zsh"):
        (folder / kind).mkdir(parents=True, exist_ok=True)
    for program in programs.values():
        (folder / "bash" / program.name).write_text(bash(program))
        (folder / "zsh" / f"_{program.name}").write_text(zsh(program))
