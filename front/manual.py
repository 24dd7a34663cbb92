"""What is installed beside the program for its users: the manual page and the completions of bash, made of the words that
`--help` prints.

  python3 front/manual.py page           the manual page, ia64.1
  python3 front/manual.py completions    the completions"""

import os
import sys

if __name__ == "__main__":
    sys.path[0] = os.path.dirname(os.path.dirname(os.path.abspath(__file__)))

# Behind the path, which has to be right before.
from front import VERSION, command, usage  # noqa: E402

STATUSES = """\
0    as wanted; of check, no function and no program is violated; of call, the function came back
1    one is violated; of orders, several states are left
2    the arguments are wrong, or a file can't be read or is refused
3    of check --strict, a function isn't judged; of orders, one state is left and the program isn't accepted; of call,
     it came to what can't be run; of the others, the program refused its input
4..9, 125
     see docs/use/commands.md, "Statuses" and "Exit statuses"
"""


def escaped(text):
    """Text as lines of a manual page that are printed as they are."""
    lines = (line.replace("\\", "\\e").replace("-", "\\-") for line in text.splitlines())
    return "\n".join(f"\\&{line}" if line.startswith((".", "'")) else line for line in lines)


def literal(text):
    return f".nf\n{escaped(text)}\n.fi\n"


def page():
    """The manual page."""
    chapters = [f'.TH IA64 1 "" "ia64 {VERSION}" "User Commands"\n.SH NAME\n'
             "ia64 \\- assembler, disassembler, checker of instruction groups, and emulator for Itanium\n"
             f".SH SYNOPSIS\n{literal(usage.USAGE)}"]
    for name in command.COMMANDS:
        chapters.append(f'.SH "THE WORDS OF {name.upper()}"\n{literal(command.parser_of(name).format_help())}')
    chapters.append(f".SH EXIT STATUS\n{literal(STATUSES)}")
    return "".join(chapters)


COMPLETIONS = """\
# Completions of ia64 for bash.
_ia64() {{
  local words=
  case $COMP_CWORD:${{COMP_WORDS[1]}} in
    1:*) words='{commands} --help --version' ;;
{options}
  esac
  case ${{COMP_WORDS[COMP_CWORD]}} in
    -*) COMPREPLY=($(compgen -W "$words" -- "${{COMP_WORDS[COMP_CWORD]}}")) ;;
    *) COMPREPLY=($(compgen -f -- "${{COMP_WORDS[COMP_CWORD]}}"))
      if [ "$COMP_CWORD" = 1 ]; then COMPREPLY=($(compgen -W "$words" -- "${{COMP_WORDS[1]}}")); fi ;;
  esac
}}
complete -o filenames -F _ia64 ia64
"""


def completions():
    """The completions of bash: commands, their options, and files."""
    names = sorted({*command.COMMANDS, *usage.NUMBERS, "trial"})
    options = []
    for name in command.COMMANDS:
        names = [word for action in command.parser_of(name)._actions for word in action.option_strings]
        options.append(f"    *:{name}) words='{' '.join(names)}' ;;")
    return COMPLETIONS.format(commands=" ".join(names), options="\n".join(options))


if __name__ == "__main__":
    sys.stdout.write({"page": page, "completions": completions}[sys.argv[1]]())
