#!/usr/bin/env python3
"""Brings the lines of every .rt and .antt file under crates/ to at most 100 characters.

`tools/wrap.py` at the top of the checkout, or `tools/wrap.py CRATE ..` for some crates. A line that names
what is brought in from a module becomes several lines of that module. A comment goes on in the next line. A
term is broken at a space where few brackets are open, before an operator and not behind it; `rt fmt` then
gives the next line its place, and what has become too long by that is broken again. A line in which no
space will do stays, and is printed. Texts in quotes and the code of functions stay as they are.
"""
import os
import re
import subprocess
import sys

MOST = 100
USE = re.compile(r"^(\s*(?:pub )?(?:ghost )?use [^{}]*\.\{)([^{}]*)(\};?)$")
COMMENT = re.compile(r"^(\s*(?:---?|///?!?)\s+)(\S.*)$")
# Words and signs behind which a line does not end, and before which none begins.
NOT_BEHIND = {"→", "∷", "∙", "×", "≡", "≢", "+", "-", "*", "/", "%", "^", "≤", "<", "&&", "||", "⊎", "++", "↔", "==",
              "let", "elim", "λ", "pub", "abbrev", "unfoldable", "rw", "ap", "subst", "unfold", "if", "↦", "use"}
NOT_BEFORE = {"in", "=", ":", "as", "↦", "at", ")", "}", "]", "{", "then", "else", "where"}
# What is worth a break before it, in characters that a line may be shorter for it.
WORTH = {"→": 45, "×": 40, "⊎": 40, "↔": 40, "||": 30, "&&": 30, "∙": 30, "≡": 25, "++": 20, "∷": 20}


def used(line):
    """The names that are brought in from one module, in as many lines as they need."""
    head, names, tail = USE.match(line).groups()
    lines, now = [], []
    for name in [name.strip() for name in names.split(",") if name.strip()]:
        if now and len(head + ", ".join(now + [name]) + tail) > MOST:
            lines.append(now)
            now = []
        now.append(name)
    return [head + ", ".join(now) + tail for now in lines + [now]]


def said(line):
    """A comment, whose rest goes into a line of its own."""
    head, text = COMMENT.match(line).groups()
    lines, now = [], ""
    for word in text.split(" "):
        if now and len(head + now + " " + word) > MOST:
            lines.append(now)
            now = ""
        now = (now + " " + word) if now else word
    return [head + now for now in lines + [now]]


def broken(line):
    """A term, broken once; nothing where no space will do."""
    indent = len(line) - len(line.lstrip(" "))
    best, depth, quoted = None, 0, False
    for at, sign in enumerate(line):
        if sign == '"':
            quoted = not quoted
        elif quoted:
            continue
        elif line.startswith(("-- ", "// "), at):
            break
        elif sign in "([{":
            depth += 1
        elif sign in ")]}":
            depth -= 1
        elif sign == " " and indent + 8 < at <= MOST:
            before, after = line[:at].split()[-1], line[at + 1:].split()[0]
            if before.lstrip("([{") in NOT_BEHIND or after in NOT_BEFORE or line[at - 1] == " ":
                continue
            if re.search(r"λ [^.]*$", line[:at]):
                continue  # the names of a λ stay together
            worth = at - 30 * depth + WORTH.get(after, 0) + (45 if before in ("in", "=") and depth == 0 else 0)
            worth += 45 if before.endswith((",", ";")) and depth else 0
            worth -= 40 if len(line) - at < 16 else 0
            if best is None or worth >= best[0]:
                best = (worth, at)
    if best is None:
        return None
    at = best[1]
    return [line[:at], " " * (indent + 2 if indent else 4) + line[at + 1:]]


def wrapped(path, text):
    """A file's text with every long line broken once, and the long lines that stay."""
    lines, stay = [], []
    for line in text.split("\n"):
        new = [line]
        if len(line) > MOST:
            if USE.match(line):
                new = used(line)
            elif COMMENT.match(line):
                new = said(line)
            elif path.endswith(".antt") or re.match(r"\s*(?:requires|ensures|ghost)\b", line) or " }" in line[-3:]:
                new = broken(line) or [line]
            if new == [line]:
                stay.append(line)
        lines += new
    return "\n".join(lines), stay


def files(crate):
    """Those of a crate that people write."""
    for part in ("src", "specs", "proofs"):
        for folder, _, names in os.walk(os.path.join("crates", crate, part)):
            yield from (os.path.join(folder, name) for name in sorted(names) if name.endswith((".rt", ".antt")))


def wrap(crate):
    """Breaks and lays out until nothing is too long, or nothing changes; the long lines that stay."""
    while True:
        stay, changed = [], []
        for path in files(crate):
            text = open(path, encoding="utf8").read()
            new, long = wrapped(path, text)
            stay += [(path, line) for line in long]
            if new != text:
                open(path, "w", encoding="utf8").write(new)
                changed.append(path)
        if not changed:
            return stay
        subprocess.run(["rt", "fmt"], cwd=os.path.join("crates", crate), check=True, stdout=subprocess.DEVNULL)


if __name__ == "__main__":
    os.chdir(os.path.dirname(os.path.dirname(os.path.abspath(__file__))))
    for crate in sys.argv[1:] or sorted(os.listdir("crates")):
        for path, line in wrap(crate):
            print("%s: %s" % (path, line))
