"""completion: scripts with which a shell completes commands, options and files."""
import argparse
from typing import Dict, List

from . import command_line

DESCRIPTION = """Writes the script with which a shell completes commands, options and files.

    eval "$(cloner-planning completion bash)"       in ~/.bashrc
    eval "$(cloner-planning completion zsh)"        in ~/.zshrc
    cloner-planning completion fish | source        in ~/.config/fish/config.fish"""

BASH = """_cloner_planning() {
  local word="${COMP_WORDS[COMP_CWORD]}" words
  if [ "$COMP_CWORD" = 1 ]; then
    COMPREPLY=($(compgen -W "COMMANDS --help --version" -- "$word"))
    return
  fi
  case "${COMP_WORDS[1]}" in
CASES
  esac
  case "$word" in
    -*) COMPREPLY=($(compgen -W "$words" -- "$word"));;
    *) COMPREPLY=($(compgen -f -- "$word"));;
  esac
}
complete -o filenames -F _cloner_planning cloner-planning
"""
ZSH = "autoload -U +X bashcompinit && bashcompinit\n"


def add_arguments(parser: argparse.ArgumentParser) -> None:
    """Adds the words of the command line."""
    parser.add_argument("shell", metavar="SHELL", choices=("bash", "zsh", "fish"), help="bash, zsh or fish")


def options_of(command: str) -> List[str]:
    """Returns the long options of a command."""
    parser = command_line.parser_of(command)
    return sorted({word for action in parser._actions for word in action.option_strings if word.startswith("--")})


def bash_script(options: Dict[str, List[str]]) -> str:
    """Returns the script for bash, which zsh can run too."""
    cases = [f'    {command}) words="{" ".join(words)}";;' for command, words in options.items()]
    return BASH.replace("COMMANDS", " ".join(options)).replace("CASES", "\n".join(cases))


def fish_script(options: Dict[str, List[str]]) -> str:
    """Returns the script for fish."""
    lines = [f"complete -c cloner-planning -n __fish_use_subcommand -f -a '{' '.join(options)}'"]
    for command, words in options.items():
        lines += [f"complete -c cloner-planning -n '__fish_seen_subcommand_from {command}' -l {word[2:]}"
                  for word in words]
    return "\n".join(lines) + "\n"


def run(options: argparse.Namespace) -> int:
    """Prints the script of the shell and returns 0."""
    known = {command: options_of(command) for command in command_line.COMMANDS}
    script = fish_script(known) if options.shell == "fish" else bash_script(known)
    print((ZSH if options.shell == "zsh" else "") + script, end="")
    return 0
