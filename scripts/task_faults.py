"""What is wrong with a task file, or likely to surprise, in words for a person."""
import os
import re
import stat

from word_faults import LONGEST_PERIOD, fault_of_weight, near

LONGEST_FILE = 67_108_864
HEAD = {"version": (1, 2), "processors": (1, 64), "frame": (1, 10**9), "slots": (1, 10**6)}
KINDS = ("arrive", "depart", "late")
KEYS_OF = {
    None: ("processor", "floor"),
    "arrive": ("processor", "floor", "kind", "at", "name", "cost", "period"),
    "depart": ("processor", "floor", "kind", "at", "name"),
    "late": ("processor", "floor", "kind", "at", "name", "index", "by"),
}
KEYS = (*KEYS_OF["arrive"], "early", "index", "by")
TEXTS = ("kind", "name")
TWO_BRACKETS = "entries are tables: write [[entry]], with two brackets"
MOST_ENTRIES, LAST_SLOT, LONGEST_DELAY = 4_095, 10**6, 1_048_576
# what refuses an arrival, in rows of `decisions`; other refusals are of departures and late releases
OF_ARRIVALS = ("20", "21", "22")


class Fault(Exception):
    """The line by which the programs refuse a file, without their name, and why."""

    def __init__(self, line, why):
        super().__init__(line)
        self.line, self.why = line, why


def beside(path):
    """The names in the folder of a file that isn't there."""
    try:
        return os.listdir(os.path.dirname(path) or ".")
    except OSError:
        return []


def unreadable(path):
    """Refuses what can't be opened or read, as far as that is seen without reading it."""
    line = "70 reading failed"
    try:
        mode = os.stat(path).st_mode
    except OSError as refused:
        likely = "; did you mean /dev/stdin?" if path == "-" else near(os.path.basename(path), beside(path))
        why = f"there is no file {path}{likely}" if isinstance(refused, FileNotFoundError) else refused
        raise Fault(line, f"{why}") from None
    if stat.S_ISDIR(mode):
        raise Fault(line, f"{path} is a folder")
    if not os.access(path, os.R_OK):
        raise Fault(line, f"you may not read {path}")


def toml_of(path):
    with open(path, "rb") as file:
        content = file.read(LONGEST_FILE + 1)
    if len(content) > LONGEST_FILE:
        raise Fault("66 file too long", f"a task file has at most {LONGEST_FILE} bytes")
    try:
        text = content.decode()
    except UnicodeDecodeError as refused:
        line = content.count(b"\n", 0, refused.start) + 1
        raise Fault("60 not TOML", f"line {line}: byte {content[refused.start]} is no UTF-8") from None
    # only here, since words and places need no reader, and Python has this one since 3.11
    import tomllib

    try:
        return tomllib.loads(text), text
    except tomllib.TOMLDecodeError as refused:
        raise Fault("60 not TOML", wrong_toml(f"{refused}", text)) from None


def wrong_toml(said, text):
    """Says which line isn't TOML, by the words of Python's reader, and what is a likely cause."""
    found = re.search(r"(.*) \(at line (\d+), column \d+\)", said)
    if not found:
        return said[:1].lower() + said[1:]
    why, number = found[1][:1].lower() + found[1][1:], int(found[2])
    line = text.splitlines()[number - 1].strip()
    value = line.partition("=")[2].strip()
    if re.fullmatch(r"\[\[?\s*entry\s*\]?\]", line):
        why = TWO_BRACKETS
    elif why == "cannot overwrite a value":
        why = "the key stands twice"
    elif value in ("True", "False"):
        why += f"; did you mean {value.lower()}?"
    elif "invalid value" in why and re.fullmatch(r"[A-Za-z_]\w*", value) and value not in ("true", "false"):
        why += f'; a text stands in quotes: "{value}"'
    return f"line {number}, `{line[:60]}`: {why}"


class TaskFile:
    """A task file, read as the programs read one: the first fault is a `Fault`."""

    def __init__(self, path):
        unreadable(path)
        self.toml, text = toml_of(path)
        lines = enumerate(text.splitlines(), 1)
        heads = [number for number, line in lines if re.match(r"\s*\[\[\s*entry\s*\]\]", line)]
        self.check_head()
        self.entries = self.toml.get("entry", [])
        if not isinstance(self.entries, list) or not all(isinstance(entry, dict) for entry in self.entries):
            raise Fault("62 entry of wrong kind at 0", TWO_BRACKETS)
        self.lines = heads if len(heads) == len(self.entries) else []
        self.logs = {}
        for place, entry in enumerate(self.entries, 1):
            self.check_entry(place, entry)

    def where(self, place):
        line = f" (line {self.lines[place - 1]})" if place and self.lines else ""
        return f"entry {place}{line}" if place else "the head of the file"

    def check_head(self):
        for key, (least, most) in HEAD.items():
            value = self.value(0, self.toml, key)
            if not least <= value <= most:
                line = "65 unknown version" if key == "version" else f"63 {key} out of range at 0"
                raise Fault(line, f"{key} is {least} {'or' if key == 'version' else 'to'} {most}, and not {value}")

    def value(self, place, table, key):
        """A value that has to be there, of its kind."""
        if key not in table:
            raise Fault(f"61 missing {key} at {place}", self.missing(place, table, key))
        value = table[key]
        wanted = str if key in TEXTS else bool if key == "early" else int
        if type(value) is not wanted:
            kinds = {str: "a text in quotes", bool: "true or false, without quotes", int: "a whole number"}
            quoted = wanted is int and isinstance(value, str) and value.isdigit()
            why = f"{self.where(place)}: {key} is {kinds[wanted]}{', without quotes' * quoted}, and not {value!r}"
            raise Fault(f"62 {key} of wrong kind at {place}", why)
        return value

    def missing(self, place, table, key):
        why = f"{self.where(place)} has no key {key}"
        entries = self.toml.get("entry", []) if place == 0 else []
        if any(isinstance(entry, dict) and key in entry for entry in entries):
            return f"{why}: it stands below an [[entry]], and belongs above the first"
        known = HEAD if place == 0 else KEYS
        likely = near(key, [other for other in table if other not in known])
        return why + likely.replace("did you mean", "is it").replace("?", ", which it has?")

    def check_entry(self, place, entry):
        processors = self.toml["processors"]
        count = f"are {processors} processors" if processors > 1 else "is 1 processor"
        self.within(place, entry, "processor", 0, processors - 1, f", since there {count}, numbered from 0")
        self.within(place, entry, "floor")
        kind = self.value(place, entry, "kind") if "kind" in entry else None
        if kind not in KEYS_OF:
            why = f"kind is one of {', '.join(KINDS)}, and not {kind!r}{near(kind, KINDS)}"
            raise Fault(f"63 kind out of range at {place}", f"{self.where(place)}: {why}")
        for key in (key for key in KEYS_OF[kind][2:] if key != "kind"):
            self.value(place, entry, key) if key in TEXTS else self.within(place, entry, key)
        if kind == "arrive" and self.toml["version"] == 2 and "early" in entry:
            self.value(place, entry, "early")
        log = self.logs.setdefault(entry["processor"], [])
        log.append(place)
        cause = self.cause(entry, kind, len(log))
        if cause:
            line = f"64 entry {len(log)} of processor {entry['processor']} refused: {cause[0]}"
            raise Fault(line, f"{self.where(place)}: {cause[1]}")

    def within(self, place, entry, key, least=0, most=None, because=""):
        value = self.value(place, entry, key)
        if value < least or most is not None and value > most:
            wanted = "not negative" if most is None else f"{least} to {most}" if most else "0"
            why = f"{self.where(place)}: {key} is {wanted}{because}, and not {value}"
            raise Fault(f"63 {key} out of range at {place}", why)

    def cause(self, entry, kind, number):
        """What rule an entry breaks, by number and text, and why; nothing if it breaks none."""
        if number > MOST_ENTRIES:
            return "12 log full", f"a log has at most {MOST_ENTRIES} entries in a file"
        found = wrong_name(entry["name"]) if kind else ()
        found = found or (wrong_weight(entry) if kind == "arrive" else ())
        return found or wrong_stamps(entry, kind)

    def falls(self):
        """Yields where a log's floor falls: the floor before, and why the rest of that log is ignored."""
        for processor, places in self.logs.items():
            floors = [self.entries[place - 1]["floor"] for place in places]
            for place, before, floor in zip(places[1:], floors, floors[1:]):
                if floor < before:
                    log = f"the entry before it in the log of processor {processor}"
                    yield before, f"{self.where(place)} has floor {floor}, and {log} has {before}: floors don't fall"
                    break

    def stall(self):
        """The fault of a file whose floors fall, or nothing."""
        before, why = min(self.falls(), default=(self.toml["slots"], ""))
        return Fault(f"52 stalled at slot {before}", why) if before < self.toml["slots"] else None

    def surprises(self):
        """Yields what the programs take without a word, and a person may have meant otherwise."""
        if "entry" not in self.toml:
            likely = [key for key in self.toml if key not in HEAD]
            yield f"there is no [[entry]], so no task arrives{near('entry', likely).replace('did you mean', 'is it')}"
        for key in self.toml:
            if key not in (*HEAD, "entry") and ("entry" in self.toml or not near("entry", [key])):
                yield f"the key {key} in the head of the file isn't known, and is ignored{near(key, (*HEAD, 'entry'))}"
        for place, entry in enumerate(self.entries, 1):
            yield from (f"{self.where(place)}: {text}" for text in self.odd(entry))
        yield from (f"{why}, and the rest of that log is ignored" for _, why in self.falls() if not self.stall())

    def odd(self, entry):
        """Yields what is odd in an entry."""
        kind, slots = entry.get("kind"), self.toml["slots"]
        for key in (key for key in entry if key not in KEYS):
            yield f"the key {key} isn't known, and is ignored{near(key, KEYS)}"
        if kind is None and (more := [key for key in entry if key in KEYS[2:]]):
            yield f"it has no kind, and so announces nothing; ignored: {', '.join(more)}"
        if kind == "arrive" and self.toml["version"] == 1 and entry.get("early", False) is not False:
            yield "early is ignored in version 1: write version = 2"
        if kind and entry["at"] >= slots:
            yield f"it is stamped {entry['at']}, and the last slot is {slots - 1}: it is never decided"


def wrong_name(name):
    rule = "a name is a letter a-z, then up to 15 letters a-z, digits or underscores"
    octets = name.encode()
    bad = re.match(rb"[a-z][a-z0-9_]*|", octets).end()
    if not octets:
        return "1 empty name", rule
    if len(octets) > 16:
        return "2 name too long", f"{rule}, and '{name}' has {len(octets)} bytes"
    return (f"3 bad byte at {bad}", f"{rule}, and not '{name}'") if bad < len(octets) else ()


def wrong_weight(entry):
    cost, period = entry["cost"], entry["period"]
    reasons = {
        "4": "cost is at least 1: the quanta in each period",
        "5": f"{cost} quanta don't fit into a period of {period} slots",
        "6": f"a period is at most {LONGEST_PERIOD} slots",
    }
    fault = fault_of_weight(cost, period)
    return (fault, reasons[fault[0]]) if fault else ()


def wrong_stamps(entry, kind):
    at, floor = entry.get("at", 0) if kind else 0, entry["floor"]
    if max(at, floor) > LAST_SLOT:
        return "8 slot too far", f"floor and at are at most {LAST_SLOT}"
    if kind and at < floor:
        return "7 stamp before floor", f"at = {at} is before the floor of the same entry, {floor}"
    if kind == "late" and not 1 <= entry["index"] <= 10**6:
        return "10 bad index", f"index is the first late subtask, 1 to {10**6}, and not {entry['index']}"
    if kind == "late" and not 1 <= entry["by"] <= LONGEST_DELAY:
        return "9 bad delay", f"by is 1 to {LONGEST_DELAY} slots, and not {entry['by']}"
    return ()
