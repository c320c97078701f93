"""What is wrong with the words of `pfair` and `pfair_follow`, in words for a person."""
import difflib
import os
import re

FILE = ("FILE",)
SETTINGS = {"--processors": (1, 64), "--frame": (1, 10**9), "--slots": (1, 10**6)}
# what stands behind a flag that names a file
A_FILE = "file"
RUN = {**SETTINGS, "--from": (0, 10**6), "--strict": None, "--resume": A_FILE, "--save": A_FILE}
# of each command its words, and its flags: None, A_FILE, or the least and the greatest number behind one
COMMANDS = {
    "pfair": {
        "windows": (("E", "P", "COUNT"), {}),
        "replay": (FILE, {"--affinity": None}),
        "decisions": (FILE, {}),
        "lags": (FILE, {}),
    },
    "pfair_follow": {
        "entries": (FILE, {}),
        "replay": ((), {**RUN, "--affinity": None}),
        "decisions": ((), RUN),
        "lags": ((), RUN),
    },
}
HELP = ("--help", "-h")
MOST_SUBTASKS = 10**6
LONGEST_PERIOD = 10**9


def near(word, known):
    """A question that names the known word that is most like this one."""
    found = difflib.get_close_matches(word, known, 1)
    return f"; did you mean {found[0]}?" if found else ""


def listed(words):
    """Words with commas and an `and`."""
    return " and ".join(filter(None, (", ".join(words[:-1]), words[-1])))


def is_number(text):
    """Whether a word is a number as the programs read one."""
    return re.fullmatch(r"\+?[0-9]+", text) is not None and int(text) < 2**64


def wrong_command(name, words):
    """What is wrong with the first word, or nothing."""
    commands = COMMANDS[name]
    known = ", ".join(commands)
    if not words:
        return f"a command is missing: {known}, or --help"
    word = words[0]
    if word in commands or word in (*HELP, "--version"):
        return ""
    if word.startswith("-"):
        flags = [flag for _, flags in commands.values() for flag in flags]
        if word.partition("=")[0] in flags:
            command = next((other for other in words if other in commands), "COMMAND")
            return f"the command stands before {word}: {name} {command} {word} .."
        return f"a command comes first, one of {known}; {word} is no flag of {name}{near(word, (*HELP, '--version'))}"
    for other, others in COMMANDS.items():
        if word in others:
            return f"'{word}' is a command of {other}: {other} {word} --help"
    if f"--{word}" in (*HELP, "--version"):
        return f"a flag has two dashes: --{word}"
    if word and os.path.exists(word):
        likely = next(command for command, (given, _) in commands.items() if given == FILE)
        return f"a command stands before the file: {name} {likely} {word}"
    return f"the commands are {known}, and not '{word}'{near(word, commands)}"


class Line:
    """The words behind a command, as they are read one by one; `why` is the first thing that is wrong."""

    def __init__(self, name, command, words):
        self.name, self.command, self.why = name, command, ""
        self.wanted, self.flags = COMMANDS[name][command]
        self.given, self.values, self.asks_help = [], {}, False
        rest = list(words)
        while rest and not self.why and not self.asks_help:
            word = rest.pop(0)
            if word in HELP:
                self.asks_help = True
            elif word == "--":
                while rest and not self.why:
                    self.take(rest.pop(0), words)
            elif word.startswith("-") and word != "-":
                self.flag(word, rest)
            else:
                self.take(word, words)
        if not self.why and not self.asks_help:
            self.why = self.missing() or self.beyond()

    def take(self, word, words):
        if len(self.given) < len(self.wanted):
            self.given.append(word)
        elif not self.wanted:
            way = "its entries come on standard input: < FILE, or pfair_follow entries FILE |"
            self.why = f"{self.command} takes no '{word}'; {way}"
        elif os.path.exists(whole := " ".join(words)):
            self.why = f"a name with a blank is one word in quotes: '{whole}'"
        else:
            self.why = f"'{word}' is a word too many: {self.name} {self.command} {' '.join(self.wanted)}"

    def flag(self, word, rest):
        key, equals, value = word.partition("=")
        if key not in self.flags:
            self.why = self.unknown(key)
        elif key in self.values:
            self.why = f"{key} stands twice"
        elif self.flags[key] is None:
            self.values[key] = None
            self.why = f"{key} has no value" if equals else ""
        elif self.flags[key] == A_FILE:
            if not equals and (not rest or re.match("-.", rest[0])):
                self.why = f"a file is missing behind {key}"
            else:
                self.values[key] = value if equals else rest.pop(0)
        elif not equals and not rest:
            self.why = f"a number is missing behind {key}"
        else:
            self.values[key] = value if equals else rest.pop(0)
            least, most = self.flags[key]
            if not (is_number(self.values[key]) and least <= int(self.values[key]) <= most):
                self.why = f"{key} is a number from {least} to {most}, and not '{self.values[key]}'"

    def unknown(self, key):
        if self.command == "windows" and re.fullmatch(r"-[0-9]+", key):
            return f"{key} is below zero: E, P and COUNT are whole numbers"
        if f"-{key}" in self.flags or f"-{key}" in (*HELP, "--version"):
            return f"a flag has two dashes: -{key}"
        if key in SETTINGS and "FILE" in self.wanted:
            return f"{self.command} has no {key}: the file says it, by the key {key[2:]}"
        others = [one for one in COMMANDS[self.name] if key in COMMANDS[self.name][one][1]]
        if others:
            return f"{self.command} has no {key}, which is a flag of {listed(others)}"
        known = [*self.flags, "--help"]
        return f"{self.command} has no flag {key}{near(key, known) or '; its flags are ' + ', '.join(known)}"

    def missing(self):
        """Which word or flag is missing, or nothing."""
        needed = ("--slots",) if "--resume" in self.values else SETTINGS
        lacks = [f"{flag} NUMBER" for flag in needed if flag in self.flags and flag not in self.values]
        if lacks:
            return f"{listed(lacks)} {'is' if len(lacks) == 1 else 'are'} missing"
        if len(self.given) < len(self.wanted):
            line = f"{self.name} {self.command} {' '.join(self.wanted)}"
            return f"{self.wanted[len(self.given)]} is missing: {line}"
        return ""

    def beyond(self):
        """Which word of `windows` is no number or too large, or nothing."""
        for what, word in zip(self.wanted, self.given) if self.command == "windows" else ():
            if not is_number(word):
                return f"{what} is a whole number, and not '{word}'"
        if self.command == "windows" and int(self.given[2]) > MOST_SUBTASKS:
            return f"COUNT is at most {MOST_SUBTASKS}, and not {self.given[2]}"
        return ""


def wrong_words(name, words):
    """Why the program refuses these words (80), or nothing."""
    why = wrong_command(name, words)
    return why if why or words[0].startswith("-") else Line(name, words[0], words[1:]).why


def fault_of_weight(cost, period):
    """The fault by which a weight is refused, or nothing if it isn't."""
    if cost == 0:
        return "4 zero cost"
    if cost > period:
        return "5 cost over period"
    return "6 period too long" if period > LONGEST_PERIOD else ""


def wrong_weight(words):
    """The fault of a weight of `windows` and why, or nothing, of words that are taken."""
    if words[:1] != ["windows"] or set(words) & set(HELP):
        return ()
    cost, period = (int(word) for word in Line("pfair", "windows", words[1:]).given[:2])
    reasons = {
        "4": "E is the cost, at least 1: the quanta in each period of P slots",
        "5": f"E is the cost and P the period, in this order, and {cost} quanta don't fit into {period} slots",
        "6": f"P is at most {LONGEST_PERIOD}",
    }
    fault = fault_of_weight(cost, period)
    return (fault, reasons[fault[0]]) if fault else ()


def file_of(name, words):
    """The task file that these words name, or None, of words that are taken."""
    if not words or words[0] not in COMMANDS[name] or "FILE" not in COMMANDS[name][words[0]][0]:
        return None
    line = Line(name, words[0], words[1:])
    return None if line.asks_help or line.why else line.given[0]


def state_of(name, words):
    """The file of the state with which a run of these words begins, or None, of words that are taken."""
    if name != "pfair_follow" or not words or words[0] not in COMMANDS[name]:
        return None
    line = Line(name, words[0], words[1:])
    return None if line.asks_help or line.why else line.values.get("--resume")


def other_state(name, words):
    """Why the state of these words isn't the one that they ask for (80), or nothing, of words that are taken."""
    path = state_of(name, words)
    if path is None or not os.path.isfile(path):
        return ""
    with open(path, "rb") as file:
        fields = file.readline(100).decode("ascii", "replace").strip().split(",")
    values = Line(name, words[0], words[1:]).values
    for flag, found in zip(("--processors", "--frame"), fields[3:5]):
        if flag in values and is_number(found) and int(values[flag]) != int(found):
            return f"{flag} is {int(values[flag])}, and {found} in the state of {path}: --resume needs no {flag}"
    return ""
