"""The words of a call as users expect them: --name VALUE or --name=VALUE, and -- before names that begin with a dash."""
from .ends import WrongCall


def parsed(words, options, command):
    """The values given to each option, by its name, and the other words.

    `options` says of each name how many words it takes: a number, or a function of the words that follow."""
    given, others, words = {}, [], list(words)
    while words:
        word = words.pop(0)
        if word == "--":
            return given, others + words
        if word == "-" or not word.startswith("-"):
            others.append(word)
            continue
        name, joined, value = word.partition("=")
        if name not in options:
            raise WrongCall(f"{name} is not known; see ./flashlist {command} --help")
        if name in given:
            raise WrongCall(f"{name} is given twice")
        takes = options[name]
        if joined:
            if takes == 0:
                raise WrongCall(f"{name} takes no value")
            given[name] = [value]
            takes = 1 if callable(takes) else takes
        else:
            takes = takes(words) if callable(takes) else takes
            given[name], words = words[:takes], words[takes:]
        if len(given[name]) != takes:
            raise WrongCall(f"{name} takes {takes} {'word' if takes == 1 else 'words'}; see ./flashlist {command} --help")
    return given, others
