"""Edits of a crate: a line 'file: PATH', then pairs of lines 'old: TEXT' and 'new: TEXT', one line each."""


def edited(crate, text):
    """The new texts of the files that an edit changes, by their paths in the crate's folder, and why it can't be applied, if so."""
    path, old, pairs, texts = "", None, 0, {}
    for line in text.splitlines():
        if line.startswith("file: "):
            path = line[6:].strip()
            if not (crate / path).is_file():
                return texts, f"there is no file {path}"
            texts.setdefault(path, (crate / path).read_text())
        elif line.startswith("old: "):
            old = line[5:]
        elif line.startswith("new:"):
            new = line[4:].removeprefix(" ")
            if not path or old is None:
                return texts, "a 'new:' line has no 'file:' or 'old:' line before it"
            if texts[path].count(old) != 1:
                return texts, f"an 'old:' text is in {path} {texts[path].count(old)} times, and not once: {old[:80]}"
            if new == old:
                return texts, "it changes nothing"
            texts[path] = texts[path].replace(old, new)
            old, pairs = None, pairs + 1
    return texts, "" if pairs else "it has no 'old:' and 'new:' pair"
