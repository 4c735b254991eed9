"""The frame: finds the command that a call names, and ends every call with its status. A further command is a module
beside `cover` and a name in COMMANDS."""

from . import check, cover, ends, gerber, streams

COMMANDS = {module.NAME: module for module in (cover, check, gerber)}
DEFAULT = cover


def overview():
    lines = "".join(f"  {name:<8}{module.SUMMARY}\n" for name, module in COMMANDS.items())
    return (f"usage: ./flashlist [COMMAND] [WORDS..]\n\n{lines}\nWithout a command {DEFAULT.NAME} is meant, as below. A file named as a "
            "command is given as ./NAME, and\n./flashlist COMMAND --help says more.\n\n")


def called(words):
    """Runs what a call names."""
    named = bool(words) and words[0] in COMMANDS
    command, words = (COMMANDS[words[0]], words[1:]) if named else (DEFAULT, words)
    options = words[:words.index("--")] if "--" in words else words
    if "--help" in options or "-h" in options:
        streams.write(("" if named else overview()) + command.help_text())
        return ends.DONE
    return command.run(words)


def main(words):
    """The exit status of a call; every end but a plain one is said in one sentence."""
    streams.guard()
    try:
        return called(words)
    except ends.End as end:
        if str(end):
            streams.say(end)
        return end.status
