"""Each option of tools/options.tsv is one of the program's, and each of the program's has a row there: by the tables of
bt_tool, in code and in definitions. What else reads the options knows which of them have a value.
"""

import re
import subprocess
from typing import NamedTuple

from tests.support import TOP, Counted, each

from files import read
from options import FILES, STRAND, commands

CODE = "crates/bt_tool/src/options/table.rt"
TOOLS = "crates/bt_tool/src/options/tool.rt"
DEFINED = "crates/bt_tool/specs/model/Table.antt"
# What the program's tables call a value.
KINDS = {"": "Nothing", **dict.fromkeys(FILES, "FileName"), "N": "Number", "F": "Fraction", STRAND: "Strand",
         "C": "Character"}
WORD = re.compile(r'"(-\w+)"')


class Said(NamedTuple):
    """What a table says of a command."""

    takes: dict
    required: set
    one_of: set
    exclusive: set
    genome: set


class Form(NamedTuple):
    """How a table of the program is written: a command with its tool, a tool with its table, the body of a table, a
    field of it, and a row."""

    command: str
    tool: str
    body: str
    field: str
    row: str


IN_CODE = Form(r'Tool::(\w+) => "(\w+)"', r"Tool::(\w+) => ([A-Z_]+),", r"const {}: Table = Table \{{\n(.*?)^\}};",
               r"^    {}: (&\[.*?\]|Some\(.*?\)),$", r'option: "(-\w+)", takes: Takes::(\w+)')
IN_DEFINITIONS = Form(r'tool_name (\w+) = codes "(\w+)"', r"table_of (\w+) = (\w+)", r"^{} = record .*? \{{\n(.*?)^\}}",
                      r"^  {} = (.*?);$", r'row \(codes "(-\w+)"\) (\w+)')


def in_program(form, text):
    """What the tables of a text say, by command."""
    table_of = dict(re.findall(form.tool, text))
    said = {}
    for tool, command in re.findall(form.command, text):
        body = re.search(form.body.format(table_of[tool]), text, re.MULTILINE | re.DOTALL)[1]
        field = {}
        for name in ("options", "required", "one_of", "exclusive", "genome"):
            found = re.search(form.field.format(name), body, re.MULTILINE | re.DOTALL)
            field[name] = found[1] if found else ""
        words = {name: WORD.findall(field[name]) for name in field}
        pairs = set(map(frozenset, zip(words["exclusive"][::2], words["exclusive"][1::2])))
        said[command] = Said(dict(re.findall(form.row, field["options"])), set(words["required"]),
                             set(words["one_of"]), pairs, set(words["genome"]))
    return said


def in_table(command):
    """What options.tsv says of a command."""
    options = command.options
    return Said({option.word: KINDS[option.value] for option in options},
                {option.word for option in options if option.default == "required"},
                {word for option in options if option.one_of() for word in (option.word, *option.one_of())},
                {frozenset((option.word, other)) for option in options for other in option.excludes},
                {option.word for option in options if option.value == "GENOME"})


@each(commands().values())
class Options(Counted):
    said = "{options} options as in the program, {others} of bedtools"

    def case(self, command):
        said = in_table(command)._asdict()
        for file, tables in ((CODE, in_program(IN_CODE, read(CODE) + read(TOOLS))),
                             (DEFINED, in_program(IN_DEFINITIONS, read(DEFINED)))):
            for what, wanted in tables[command.name]._asdict().items():
                self.assertEqual(said[what], wanted, f"{what} of {command.name}: options.tsv, and then {file}")
        self.counts.update(options=len(command.options), others=len(command.others))

    def test_commands(self):
        for tables in (in_program(IN_CODE, read(CODE) + read(TOOLS)), in_program(IN_DEFINITIONS, read(DEFINED))):
            self.assertEqual(list(tables), list(commands()))

    def test_rows_are_whole(self):
        for command in commands().values():
            words = [option.word for option in (*command.options, *command.others)]
            self.assertEqual(len(words), len(set(words)), f"{command.name} has an option twice")
            for option in (*command.options, *command.others):
                with self.subTest(command=command.name, option=option.word):
                    self.assertEqual(bool(option.default), bool(option.does), "default")
                    self.assertTrue(option.does or option.advice and not option.excludes, "what it does, or what to do")
                    self.assertLessEqual({*option.excludes, *option.one_of()}, set(words), "other options")

    def test_values_in_the_front(self):
        rows = [(command.name, option.word, bool(option.value)) for command in commands().values()
                for option in (*command.options, *command.others)]
        script = '. front/words.sh; while read -r dk_command option; do takes_value "$option"; echo $?; done'
        lines = "".join(f"{command} {option}\n" for command, option, _ in rows)
        ran = subprocess.run(["sh", "-c", script], cwd=TOP, input=lines, capture_output=True, text=True, check=True)
        self.assertEqual(ran.stdout.split(), ["0" if has_value else "1" for _, _, has_value in rows])
