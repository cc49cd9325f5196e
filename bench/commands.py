"""The commands with their fields and the kinds of these, read off the table in cmd_types, so that no script has a list of its own."""
import os
import re

TABLE = os.path.join(os.path.dirname(os.path.dirname(os.path.abspath(__file__))), "crates", "cmd_types", "src", "command_name.rt")


def commands():
    """Of each command its fields in order: pairs of a name and a kind, as the table has them."""
    text = open(TABLE, encoding="utf-8").read().split("macro_rules! commands_by_fields {")[1].split("\nmacro_rules!")[0]
    table = {}
    for fields, rows in re.findall(r"\{([^{}]*)\} \{((?:\s*\w+\(\w+\) = b\"\w+\")+)\s*\}", text):
        for name in re.findall(r'b"(\w+)"', rows):
            table[name] = re.findall(r"(\w+): ([\w()]+)", fields)
    return table
