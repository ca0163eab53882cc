"""What the program's help names: its commands, and the options and arguments of each. tools/help and checks/pages
read it. SJA names another program than that of tools/with_checks."""

import re
import subprocess
import sys


def told(path, *words):
    """What the parser says of these words. Its texts go to the error output."""
    return subprocess.run([path, *words], stdin=subprocess.DEVNULL, stderr=subprocess.PIPE, text=True).stderr


class Help:
    """The help of these words: the line at its head, and of commands, options and arguments the line behind each; those
    that may be left out are no arguments, but `optional`."""

    def __init__(self, path, *words):
        text = told(path, *words, "--help")
        self.about = text.partition("\n")[0]
        self.commands = dict(re.findall(r"^  (\w+) +(.*)", self.part(text, "Commands"), re.M))
        self.arguments = dict(re.findall(r"^  <(\w+)>(?:\.\.\.)? +(.*)", self.part(text, "Arguments"), re.M))
        self.optional = dict(re.findall(r"^  \[(\w+)\](?:\.\.\.)? +(.*)", self.part(text, "Arguments"), re.M))
        self.after = text.partition("\nOptions:\n")[2].partition("\n\n")[2]
        self.options = {}
        for short, long, line in re.findall(r"^ +(?:(-\w), )?(--\w+)(?: <\w+>)* +(.*)", self.part(text, "Options"), re.M):
            self.options.update({option: line for option in (short, long) if option})
        if not self.options:
            sys.exit(f"{path} {' '.join(words)} --help names no option:\n{text}")

    @staticmethod
    def part(text, title):
        """The lines below a title."""
        found = re.search(rf"^{title}:\n((?: .*\n)+)", text, re.M)
        return found[1] if found else ""


def helps(path):
    """The help of the program, and that of each of its commands but help itself."""
    whole = Help(path)
    if not whole.commands:
        sys.exit(f"{path} --help names no command")
    return whole, {name: Help(path, name) for name in whole.commands if name != "help"}
