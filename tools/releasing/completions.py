"""Completions for bash, zsh and fish: commands, their options, files, and the codes or variables of a list that is named before."""
from __future__ import annotations

import re

from . import manuals

CODES = "vodmejka requests --codes LIST 2>/dev/null | sed '1d; s/,.*//'"
NAMES = "vodmejka requests LIST 2>/dev/null"
PROGRAMS = {"m_survey": ("facts", "table", "version"),
            "m_tax": ("batch", "cases", "check", "compile", "exec", "large", "lint", "run", "serve")}


def scripts() -> dict[str, str]:
    """The scripts, by the places at which Debian's shells look for them."""
    from vodmejka import commands
    options = {name: options_of(name) for name in commands.names()}
    return {"usr/share/bash-completion/completions/vodmejka": bash(options),
            **{f"usr/share/bash-completion/completions/{name}": BASH_PROGRAM.replace("@NAME@", name).replace("@COMMANDS@", " ".join(words))
               for name, words in PROGRAMS.items()},
            "usr/share/zsh/vendor-completions/_vodmejka": zsh(options),
            "usr/share/fish/vendor_completions.d/vodmejka.fish": fish(options)}


def options_of(name: str) -> list[str]:
    """The options that a command's help names."""
    return sorted({*re.findall(r"(?<![\w-])--[a-z][a-z-]*", manuals.help_of(name)), "--help"})


def bash(options: dict[str, list[str]]) -> str:
    cases = "\n".join(f"        {name}) options='{' '.join(words)}' ;;" for name, words in options.items())
    made = BASH.replace("@COMMANDS@", " ".join(options)).replace("@OPTIONS@", cases)
    return made.replace("@CODES@", listed(CODES)).replace("@NAMES@", listed(NAMES))


def zsh(options: dict[str, list[str]]) -> str:
    cases = "\n".join(f"        {name}) options=({' '.join(words)}) ;;" for name, words in options.items())
    made = ZSH.replace("@COMMANDS@", " ".join(options)).replace("@OPTIONS@", cases)
    programs = "".join(f"            {program}) compadd -- {' '.join(words)} ;;\n" for program, words in PROGRAMS.items())
    made = made.replace("@PROGRAMS@", programs)
    return made.replace("@CODES@", listed(CODES)).replace("@NAMES@", listed(NAMES))


def fish(options: dict[str, list[str]]) -> str:
    lines = [FISH.replace("@CODES@", CODES.replace("LIST", "$list")).replace("@NAMES@", NAMES.replace("LIST", "$list"))]
    lines += [f"complete -c {command} -n __fish_use_subcommand -f -a '{' '.join(names)}'" for command, names in (*PROGRAMS.items(), ("vodmejka", options))]
    for name, words in options.items():
        lines += [f"complete -c vodmejka -n '__fish_seen_subcommand_from {name}' -l {word[2:]}" for word in words]
    return "\n".join([*lines, ""])


def listed(command: str) -> str:
    return command.replace("LIST", '"$list"')


BASH = r"""# bash completion for vodmejka
_vodmejka() {
    local word=${COMP_WORDS[COMP_CWORD]} command=${COMP_WORDS[1]-} options= list= at
    COMPREPLY=()
    if [ "$COMP_CWORD" -eq 1 ]; then
        mapfile -t COMPREPLY < <(compgen -W '@COMMANDS@ --help' -- "$word")
        return
    fi
    case $command in
@OPTIONS@
    esac
    # (the list is the first file of that name before the word)
    for ((at = 2; at < COMP_CWORD; at++)); do
        case ${COMP_WORDS[at]} in *.list) list=${COMP_WORDS[at]}; break ;; esac
    done
    if [[ $word == -* ]]; then
        mapfile -t COMPREPLY < <(compgen -W "$options" -- "$word")
    elif [ -n "$list" ] && [[ $command == marginal || $command == requests || ${COMP_WORDS[COMP_CWORD-1]} == --step ]]; then
        mapfile -t COMPREPLY < <(compgen -f -- "$word"; compgen -W "$(@CODES@)" -- "$word")
    elif [ -n "$list" ] && [[ $command == why || ${COMP_WORDS[COMP_CWORD-1]} == --of ]]; then
        mapfile -t COMPREPLY < <(compgen -f -- "$word"; compgen -W "$(@NAMES@)" -- "$word")
    else
        mapfile -t COMPREPLY < <(compgen -f -- "$word")
    fi
    compopt -o filenames 2>/dev/null
}
complete -F _vodmejka vodmejka
"""

BASH_PROGRAM = r"""# bash completion for @NAME@
_@NAME@() {
    local word=${COMP_WORDS[COMP_CWORD]}
    if [ "$COMP_CWORD" -eq 1 ]; then
        mapfile -t COMPREPLY < <(compgen -W '@COMMANDS@' -- "$word")
    else
        mapfile -t COMPREPLY < <(compgen -f -- "$word")
        compopt -o filenames 2>/dev/null
    fi
}
complete -F _@NAME@ @NAME@
"""

ZSH = r"""#compdef vodmejka m_tax m_survey
_vodmejka() {
    local -a options
    local list name=$words[2]
    if (( CURRENT == 2 )); then
        case $service in
@PROGRAMS@            *) compadd -- @COMMANDS@ --help ;;
        esac
        return
    fi
    if [[ $service != vodmejka ]]; then _files; return; fi
    case $name in
@OPTIONS@
    esac
    list=${${(M)words[3,CURRENT-1]:#*.list}[1]}
    if [[ $words[CURRENT] == -* ]]; then compadd -- $options; return; fi
    if [[ -n $list && ( $name == marginal || $name == requests || $words[CURRENT-1] == --step ) ]]; then
        compadd -- ${(f)"$(@CODES@)"}
    elif [[ -n $list && ( $name == why || $words[CURRENT-1] == --of ) ]]; then
        compadd -- ${(f)"$(@NAMES@)"}
    fi
    _files
}
_vodmejka "$@"
"""

FISH = r"""# fish completions for vodmejka, m_tax and m_survey
function __vodmejka_list
    string match -- '*.list' (commandline -opc) | head -n 1
end
function __vodmejka_codes
    set -l list (__vodmejka_list)
    test -n "$list"; and @CODES@
end
function __vodmejka_names
    set -l list (__vodmejka_list)
    test -n "$list"; and @NAMES@
end
complete -c vodmejka -n '__fish_seen_subcommand_from marginal requests' -a '(__vodmejka_codes)'
complete -c vodmejka -n '__fish_seen_subcommand_from reform' -l step -x -a '(__vodmejka_codes)'
complete -c vodmejka -n '__fish_seen_subcommand_from why' -a '(__vodmejka_names)'
complete -c vodmejka -n '__fish_seen_subcommand_from marginal reform' -l of -x -a '(__vodmejka_names)'
"""
