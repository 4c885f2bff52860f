#!/usr/bin/env python3
"""Writes, by the options of options.py, the help of `dunekettle`, and the completions for bash, zsh and fish of the
program and of its front.

Completions have what an option does up to the first colon or semicolon. The version is that of CHANGELOG.md, the kit
that of README.md. `make install` puts its NAME into the files.
"""

import re
import sys

from files import read, write
from options import FILES, FRONT, STRAND, Option, call, commands, wrapped

NAME = "dunekettle-bedtools"
# What the front has beside the commands: its word, and what it does.
OWN = {"help": "shows the options of a command", "check": "says whether the commands can take a file, and why not",
       "report": "says how many calls of a pipeline Dunekettle took, and why not the others"}
# The options of `check`, as those of the commands.
CHECK = [Option("-g", "GENOME", "", [], "the order of the chromosomes", ""),
         Option("--json", "", "", [], "writes JSON", "")]
# What ends them, which nobody completes.
CHECK_END = Option("--", "", "", [], "all that follows is a file, also if it begins with a dash", "")
VARIABLES = {
    "DUNEKETTLE_HINTS=0": "dunekettle gives no hints, and becomes the program",
    "DUNEKETTLE_TELL=1": "the drop-in says which program runs a call, and why; a path instead of 1 names a file for it,"
                         " which report reads",
    "DUNEKETTLE_WARN=0": "the drop-in doesn't warn of lines on which bedtools loses or changes output silently",
    "DUNEKETTLE_ALWAYS=1": "the drop-in never runs your bedtools",
    "DUNEKETTLE_ROOM=0": "the drop-in leaves all pipes and .gz files to your bedtools; a number instead of 0 is how"
                         " many bytes of their text it keeps",
    "DUNEKETTLE_SMALL=0": "the drop-in checks files of any size for genomecov; a number of bytes instead of 0 is a sixth"
                          " of the size from which on it checks some forms",
}


def kit():
    """What proves and builds, from README.md."""
    return re.search(r"rattle-kit-\w+", read("README.md"))[0]


def version():
    """The version, from CHANGELOG.md."""
    return re.search(r"^## (\S+)", read("CHANGELOG.md"), re.MULTILINE)[1]


def own_help(known):
    """The help of the front itself."""
    lines = [f"Dunekettle {version()}", "% version", f"Dunekettle {version()}, proved with {kit()}",
             f"commands: {' '.join(known)}", "% dunekettle",
             "dunekettle COMMAND [OPTION..]            runs a command; a hint may follow its error",
             "dunekettle help COMMAND                  the options of a command, also COMMAND --help",
             "dunekettle check FILE.. [-g GENOME] [--json]",
             "                                         whether the commands can take these files",
             "dunekettle report FILE                   what DUNEKETTLE_TELL=FILE wrote, in all",
             "dunekettle --version                     the version, the kit and the commands", "",
             "Input is sorted by chromosome and start: LC_ALL=C sort -k1,1 -k2,2n", ""]
    for command in known.values():
        lines += wrapped(f"{command.name:<12}", command.does.split())
    lines += ["", "Environment:"]
    for variable, text in VARIABLES.items():
        lines += wrapped(f"  {variable:<22}", text.split())
    return [*lines, "", "Pages: man dunekettle-merge, and so for each command; man dunekettle; and the",
            f"folder share/doc/{NAME} of the installation."]


def command_help(command):
    """The help of a command."""
    lines = [*wrapped("", [FRONT, *call(command)], "    "), "", *wrapped("", sentence(command.does)), ""]
    for option in command.options:
        lines += wrapped(f"  {option.shown():<15}", f"{option.text()} [{option.default}]".split())
    return lines


def sentence(text):
    """The words of a text as a sentence."""
    return f"{text[0].upper()}{text[1:]}.".split()


def check_help():
    """The help of `check`."""
    lines = ["dunekettle check FILE.. [-g GENOME] [--json]", "",
             *wrapped("", ("Says what kind each file is, how it is sorted, and what it has: header lines, blank lines, "
                           "CR LF, records without a strand. Then it lists the names that some of the files lack. The "
                           "status is 0 if the seven commands can take all of the files, and 1 if not.").split()), ""]
    for option in [*CHECK, CHECK_END]:
        lines += wrapped(f"  {option.shown():<15}", option.does.split())
    return lines


def report_help():
    """The help of `report`."""
    return ["dunekettle report FILE", "",
            *wrapped("", ("Reads the file that DUNEKETTLE_TELL names, which has a line for each call of the drop-in, "
                          "and says how many calls there were, how many of them Dunekettle took, and why bedtools "
                          "took the others. The status is 1 if the file has no call.").split())]


def help_text(known):
    """The help of the front: a part for each command, behind a line that begins with a percent sign."""
    lines = own_help(known)
    for command in known.values():
        lines += [f"% {command.name}", *command_help(command)]
    return [*lines, "% check", *check_help(), "% report", *report_help()]


def all_words(name, known):
    """The first words of a program, each with what it does, and their options."""
    words = {command.name: (command.does, command.options) for command in known.values()}
    if name == FRONT:
        words["help"] = (OWN["help"], [])
        words["check"] = (OWN["check"], CHECK)
        words["report"] = (OWN["report"], [])
    return words


def short(option):
    """What an option does, up to the first colon or semicolon."""
    return re.split("[:;] ", option.does)[0]


def kind_of(option):
    """What follows an option: a file, a strand, something else or nothing."""
    if not option.value:
        return "none"
    return "file" if option.value in FILES else "strand" if option.value == STRAND else "other"


def bash_file(name, known):
    """Where several words are left, bash lists each with its text; a single one is put in without it."""
    function = "_" + name.replace("-", "_")
    lines = [f"# Completions of {name} for bash, made by tools/completions.py.",
             f"{function}() {{",
             "    local word=${COMP_WORDS[COMP_CWORD]} command=${COMP_WORDS[1]-} line lines=()",
             "    COMPREPLY=()",
             "    if ((COMP_CWORD == 1)); then",
             "        lines=("]
    words = all_words(name, known)
    lines += [f"            {quoted(f'{command}  ({purpose})')}" for command, (purpose, _) in words.items()]
    lines += ["        )", "    else", '        case $command:${COMP_WORDS[COMP_CWORD - 1]} in']
    for kind, action in (("file", "compopt -o default; return"), ("strand", "lines=(+ -)"), ("other", "return")):
        places = [f"{command}:{option.word}" for command, (_, options) in words.items()
                  for option in options if kind_of(option) == kind]
        lines.append(f"        {' | '.join(places)}) {action} ;;")
    if name == FRONT:
        lines += [f"        help:*) lines=({' '.join(known)}) ;;", "        report:*) compopt -o default; return ;;",
                  "        check:*) [[ $word == -* ]] || { compopt -o default; return; } ;;&"]
    for command, (_, options) in words.items():
        if options:
            lines.append(f"        {command}:*) lines=(")
            lines += [f"            {quoted(f'{option.word}  ({short(option)})')}" for option in options]
            lines.append("        ) ;;")
    lines += ["        esac", "    fi",
              '    for line in "${lines[@]}"; do',
              '        [[ $line == "$word"* ]] && COMPREPLY+=("$line")',
              "    done",
              "    ((${#COMPREPLY[@]} != 1)) || COMPREPLY=(\"${COMPREPLY[0]%%  (*}\")",
              "}",
              f"complete -F {function} {name}"]
    return lines


def zsh_file(name, known):
    """The words behind the command are taken as those of a program of its own."""
    words = all_words(name, known)
    lines = [f"#compdef {name}", f"# Completions of {name} for zsh, made by tools/completions.py.",
             "local -a commands", "commands=("]
    lines += [f"    {quoted(f'{command}:{purpose}')}" for command, (purpose, _) in words.items()]
    lines += [")", "if ((CURRENT == 2)); then", "    _describe command commands", "    return", "fi",
              "local command=$words[2]", "shift words", "((CURRENT--))", "case $command in"]
    if name == FRONT:
        lines += ["help)", "    _describe command commands ;;", "report)", "    _files ;;"]
    for command, (_, options) in words.items():
        if options:
            lines += [f"{command})", "    _arguments \\"]
            lines += [f"        {zsh_option(option)} \\" for option in options]
            if command == "check":
                lines.append("        '*:file:_files' \\")
            lines[-1] = lines[-1][:-2] + " ;;"
    return [*lines, "esac"]


def zsh_option(option):
    """An option as `_arguments` reads it."""
    text = re.sub(r"([\[\]:\\])", r"\\\1", short(option))
    action = {"file": ":_files", "strand": ":(+ -)", "other": ": ", "none": ""}[kind_of(option)]
    return quoted(f"{option.word}[{text}]" + (f":{option.value}{action}" if option.value else ""))


def fish_file(name, known):
    """fish knows options of one hyphen and several letters as old ones."""
    words = all_words(name, known)
    lines = [f"# Completions of {name} for fish, made by tools/completions.py.", f"complete -c {name} -f"]
    for command, (purpose, _) in words.items():
        lines.append(f"complete -c {name} -n __fish_use_subcommand -a {command} -d {fish_quoted(purpose)}")
    if name == FRONT:
        lines += [f"complete -c {name} -n '__fish_seen_subcommand_from help' -a '{' '.join(known)}'",
                  f"complete -c {name} -n '__fish_seen_subcommand_from check report' -F"]
    for command, (_, options) in words.items():
        for option in options:
            how = {"file": " -r -F", "strand": " -x -a '+ -'", "other": " -x", "none": ""}[kind_of(option)]
            word = f"-l {option.word[2:]}" if option.word.startswith("--") else f"-o {option.word[1:]}"
            at = f"-n '__fish_seen_subcommand_from {command}'"
            lines.append(f"complete -c {name} {at} {word}{how} -d {fish_quoted(short(option))}")
    return lines


def quoted(text):
    """A word for bash and zsh."""
    return "'" + text.replace("'", "'\\''") + "'"


def fish_quoted(text):
    """A word for fish."""
    return "'" + text.replace("\\", "\\\\").replace("'", "\\'") + "'"


def made():
    """Each file and its text."""
    known = commands()
    files = {"generated/help.txt": help_text(known)}
    for name in (NAME, FRONT):
        for shell, lines in (("bash", bash_file), ("zsh", zsh_file), ("fish", fish_file)):
            files[f"generated/completions/{name}.{shell}"] = lines(name, known)
    return {name: "".join(f"{line}\n" for line in lines) for name, lines in files.items()}


if __name__ == "__main__":
    sys.exit(write(made()))
