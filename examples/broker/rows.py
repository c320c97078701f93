"""What comes from the broker: rows of entries (docs/SPECIFICATION.md, "Entries as rows"), for the Python package.

By OPTIONS mosquitto_sub writes a line for each message: its topic, and its payload in hexadecimal, since a payload of
two lines could else pass for two messages.
"""
import re
import subprocess

import pfair

TOPICS = ("pfair/+/+/+", "pfair/digest/+", "pfair/state/+/+/hash")
OPTIONS = ("-q", "1", *(word for topic in TOPICS for word in ("-t", topic)), "-F", "%t %x")
LINE, NUMBER = re.compile(rb"pfair/([!-~]+) ([0-9a-f]*)\n?"), re.compile("0|[1-9][0-9]*")
TEXTS, FIELDS = ("kind", "name"), ("at", "kind", "name", "cost", "period", "early", "index", "by")


def message_of(line):
    """Returns the parts of a topic behind pfair/, and the payload; None if they aren't printable ASCII."""
    found = LINE.fullmatch(line)
    payload = found and bytes.fromhex(found[2].decode())
    if not found or not payload.isascii() or not (payload.decode() or " ").isprintable():
        return None
    return found[1].decode().split("/"), payload.decode()


def number_of(text):
    if not NUMBER.fullmatch(text):
        raise ValueError(f"{text!r} is no number")
    return int(text)


def key_of(topic, payload):
    """Returns the run, the processor and the number of a row; None if a message has another topic than its row's key.

    Who may publish under a topic speaks for that processor alone. What has no payload isn't kept any more.
    """
    try:
        run, processor, number = map(number_of, topic)
    except ValueError:
        return None
    return (run, processor, number) if not payload or payload.startswith(f"{processor},{number},") else None


def take(dispatcher, row):
    """Lets a dispatcher take the entry of a row; a line that is none changes nothing, as in `pfair_follow`."""
    try:
        processor, number, floor, *fields = row.split(",")
        told = {name: field for name, field in zip(FIELDS, fields, strict=True) if field != "-"}
        if "early" in told:
            told["early"] = ("false", "true").index(told["early"])
        numbers = {name: number_of(field) for name, field in told.items() if name not in (*TEXTS, "early")}
        dispatcher.take(number_of(processor), number_of(number), pfair.Entry(number_of(floor), **{**told, **numbers}))
    except (ValueError, pfair.PfairError):
        pass


def log_of(dispatcher, processor):
    """Returns the entries of a sound beginning."""
    return [dispatcher.held(processor, number + 1) for number in range(dispatcher.mark(processor)[1])]


def rows_of(script, processor):
    """Returns the rows of a processor's log in a script."""
    how = {"input": script.text(), "stdout": subprocess.PIPE, "text": True, "check": True}
    rows = subprocess.run(["pfair_follow", "entries", "/dev/stdin"], **how).stdout.splitlines()
    return [row for row in rows if row.startswith(f"{processor},")]
