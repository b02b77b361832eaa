#!/usr/bin/env python3
"""lets.py PROOF-FILE ..: definitions with a line above 100 characters, or broken in a path, anew.

Where breaking the lines is not enough, the paths from `c` become lets: `c .before .before ..
.is-box` is `at-is-box .is-box`, with one `let` for each place of the walk, each from the one before
it; the place that has the arguments and the requires is `start`. Places far apart get one between
them that another definition of the file names. Long `use` lines become several. Run from the
repository's root, then `rt fmt` and the check. What is still long, or now refused, is for the hand:
`omega` reads the lets in scope too, and may then find less by itself.
"""
import re
import sys

MOST = 100  # characters of a line
FAR = 8  # more steps than this between two places are broken up
PATH = re.compile(r"(?<![\w.-])c((?: \.before){2,})(?: \.([a-z][a-z0-9-]*))?")
HEAD = re.compile(r"^[a-z][\w-]* c( κs)? =", re.M)


# ---- an expression as nodes: [opening, items, closing, what follows]; a word has no items


def tree(text):
    stack = [("", [[]])]
    for token in re.findall(r"[(){},;]|[^\s(){},;]+", text):
        nodes = stack[-1][1][-1]
        if token in "({":
            stack.append((token, [[]]))
        elif token in ")}":
            opening, items = stack.pop()
            stack[-1][1][-1].append([opening, [i for i in items if i], token, ""])
        elif token in ",;":
            stack[-1][1].append([])
        elif token == ".":
            nodes[-1][3] += token
        elif token[0] == "." and nodes:
            nodes[-1][3] += " " + token
        else:
            nodes.append(word(token))
    return stack[0][1][0]


def word(text):
    return [text, None, "", ""]


def flat(nodes):
    return " ".join(one(n) for n in nodes)


def one(node):
    opening, items, closing, after = node
    if items is None:
        return opening + after
    if opening == "{" and len(items) > 1:
        return "{ " + "; ".join(flat(i) for i in items) + " }" + after
    return opening + ", ".join(flat(i) for i in items) + closing + after


# ---- its lines; after the last there is room for `tail` characters


def lines(nodes, indent, tail=0):
    pad, first = " " * indent, nodes[0][0]
    if first == "let":
        return bound(nodes, indent, tail)
    if indent + len(flat(nodes)) + tail <= MOST:
        return [pad + flat(nodes)]
    for sign in ("×", "∙"):
        at = [i for i, n in enumerate(nodes) if n[0] == sign]
        if at:
            told = lines(nodes[: at[0]], indent)
            for a, b in zip(at, at[1:] + [len(nodes)]):
                told += signed(nodes[a:b], indent, tail if b == len(nodes) else 0)
            return told
    if first == "λ":
        end = next(i for i, n in enumerate(nodes) if one(n).endswith("."))
        return [pad + flat(nodes[: end + 1])] + lines(nodes[end + 1 :], indent, tail)
    if len(nodes) == 1:
        return (path if nodes[0][1] is None else group)(nodes[0], "", indent, tail)
    told, line = [], ""
    for i, node in enumerate(nodes):
        rest = tail if i == len(nodes) - 1 else 0
        text = one(node)
        if line and len(line) + 1 + len(text) + rest <= MOST:
            line += " " + text
            continue
        lead = ""
        if line and node[1] is not None and len(node[1]) > 1:
            lead = line[indent:] + " "
        elif line:
            told.append(line)
        if node[1] is not None and (lead or indent + len(text) + rest > MOST):
            told += group(node, lead, indent, rest)
            line = told.pop()
        else:
            line = pad + text
    return told + [line]


def bound(nodes, indent, tail):
    """A let, and what follows it on lines of its own."""
    depth, end = 0, 0
    for end, node in enumerate(nodes):
        depth += (node[0] == "let") - (node[0] == "in")
        if depth == 0:
            break
    is_ = next(i for i, n in enumerate(nodes) if n[0] == "=")
    name, value = flat(nodes[: is_ + 1]), nodes[is_ + 1 : end]
    whole = " " * indent + name + " " + flat(value) + " in"
    if len(whole) <= MOST:
        told = [whole]
    elif value[0][1] is None and value[0][0] not in ("let", "λ"):
        head = [name + " " + value[0][0], None, "", value[0][3]]
        told = lines([head] + value[1:], indent, 3)
        told[-1] += " in"
    else:
        told = [" " * indent + name] + lines(value, indent, 3)
        told[-1] += " in"
    return told + lines(nodes[end + 1 :], indent, tail)


def signed(nodes, indent, tail):
    """A sign and what follows it."""
    text = " " * indent + flat(nodes)
    if len(text) + tail <= MOST:
        return [text]
    if len(nodes) == 2 and nodes[1][1] is not None:
        return group(nodes[1], nodes[0][0] + " ", indent, tail)
    return lines([word(nodes[0][0] + " " + one(nodes[1]))] + nodes[2:], indent, tail)


def path(node, lead, indent, tail):
    """A word with more fields than a line has room for."""
    told = [" " * indent + node[0]]
    for field in node[3].split():
        if len(told[-1]) + len(field) + 1 + tail > MOST:
            told.append(" " * (indent + 3))
        told[-1] += " " + field
    return told


def group(node, lead, indent, tail):
    """A group over several lines, after what stands before it on its first line."""
    opening, items, closing, after = node
    pad = " " * indent
    if len(items) == 1:
        inner = lines(items[0], indent, tail + 1 + len(after))
        told = [pad + lead + opening + inner[0][indent:]] + inner[1:]
        if len(told[0]) > MOST:
            head = word(opening + one(items[0][0]))
            told = [pad + lead.rstrip()] if lead else []
            told += lines([head] + items[0][1:], indent, tail + 1 + len(after))
        told[-1] += closing + after
        return told
    told = [pad + lead + opening]
    for item in items:
        told += lines(item, indent + 2, 1)
        told[-1] += ";" if opening == "{" else ","
    return told + [pad + closing + after]


def laid(head, body):
    if len(head) + 1 + len(body) <= MOST:
        return [head + " " + body]
    nodes = tree(body)
    if len(nodes) == 1 and nodes[0][1] is not None and len(nodes[0][1]) > 1:
        return group(nodes[0], head + " ", 0, 0)
    if len(nodes) == 2 and nodes[0][0] == "record":
        return group(nodes[1], head + " record ", 0, 0)
    return [head] + lines(nodes, 4)


# ---- paths as lets


def bare(body):
    """Paths without brackets round the place."""
    body = re.sub(r"\((c(?: \.before)+)\) \.", r"\1 .", body)
    return re.sub(r"\((c(?: \.before){2,})\)", r"\1", body)


def places(body):
    """The fields that are read at each place."""
    found = {}
    for m in PATH.finditer(body):
        found.setdefault(m.group(1).count(".before"), set()).add(m.group(2) or "args")
    return found


def between(found, others):
    """Places are added between two that are far apart, where another definition names one."""
    left = set()
    while True:
        ends = sorted([0] + list(found))
        gaps = [g for g in zip(ends, ends[1:]) if g[1] - g[0] > FAR and g not in left]
        if not gaps:
            return
        a, b = gaps[0]
        by = []
        for other in others:
            for e in other:
                d = e - (b - a)
                if other[e] & found[b] and (a == 0 or other.get(d, set()) & found[a]):
                    by += [(abs(2 * at - d - e), at - d + a, min(other[at]))
                           for at in other if d < at < e and at - d + a > 1]
        if by:
            found[min(by)[1]] = {min(by)[2]}
        else:
            left.add((a, b))


def lets(body, others):
    body = bare(body)
    names = {}
    for m in re.finditer(r"let ([\w-]+) = c((?: \.before){2,}) in ", body):
        names[m.group(2).count(".before")] = m.group(1)
        body = body.replace(m.group(0), "")
    found = places(body)
    between(found, others)
    used = set(re.findall(r"let ([\w-]+)", body)) | set(names.values())
    for depth in sorted(found):
        if depth in names:
            continue
        start = found[depth] & {"args", "pre", "good"}
        name = field = "start" if start else "at-" + sorted(found[depth])[0]
        while name in used:
            name = "%s-%d" % (field, 2 + sum(u.startswith(field + "-") for u in used))
        names[depth] = name
        used.add(name)
    text, last, at = "", "c", 0
    for depth in sorted(names):
        text += "let %s = %s%s in " % (names[depth], last, " .before" * (depth - at))
        last, at = names[depth], depth

    def named(m):
        return names[m.group(1).count(".before")] + (" ." + m.group(2) if m.group(2) else "")

    return text + PATH.sub(named, body)


def anew(block, others):
    m = HEAD.search(block)
    text = block[m.start() :] if m else ""
    broken = re.search(r"(\.before|\bc)$|^\s+\.", text, re.M)
    if not broken and all(len(line) <= MOST for line in text.split("\n")):
        return block
    if "--" in text or "where" in text.split():
        print("left for the hand: %s" % m.group(0))
        return block
    body = " ".join(text[len(m.group(0)) :].split())
    told = laid(m.group(0), re.sub(r"\((c(?: \.before)+)\) \.", r"\1 .", body))
    if len(told) > 3 or any(len(line) > MOST for line in told):
        told = laid(m.group(0), lets(body, others))
    return block[: m.start()] + "\n".join(told)


def used(m):
    """A long `use` line as several."""
    told = []
    for name in m.group(2).split(", "):
        if told and len(told[-1]) + len(name) + 3 <= MOST:
            told[-1] = told[-1][:-1] + ", " + name + "}"
        else:
            told.append("use %s.{%s}" % (m.group(1), name))
    return "\n".join(told)


def rewrite(file):
    text = open(file, encoding="utf8").read().rstrip("\n")
    text = re.sub(r"^use (\S+)\.\{(.*)\}$",
                  lambda m: used(m) if len(m.group(0)) > MOST else m.group(0), text, flags=re.M)
    blocks = text.split("\n\n")
    heads = [m for m in map(HEAD.search, blocks) if m]
    found = [places(bare(" ".join(m.string[m.end() :].split()))) for m in heads]
    text = "\n\n".join(anew(b, found) for b in blocks) + "\n"
    open(file, "w", encoding="utf8").write(text)


for file in sys.argv[1:]:
    rewrite(file)
