"""Makes a script small that shows a fault, while it shows the same kind of fault."""

from .script import GIVES_CAPABILITY, TAKES_CAPABILITY


def without_vat_3(lines):
    """The script of two vats, or the chain of a triangle's three."""
    if lines[0][1] != "3":
        return []
    two = [["vats", "2"]] + [line for line in lines[1:]
                             if not (len(line) > 1 and line[0] not in ("turn", "settle") and line[1] == "3")
                             and not any(word in ("b13", "b23", "o3") for word in line)]
    return [two] + ([[["vats", "3"]] + lines[1:]] if "triangle" in lines[0] else [])


def fewer_lines(lines, shows):
    """The delta debugging of Zeller and Hildebrandt, over all lines but the first."""
    pieces = 2
    while len(lines) > 2:
        size = max(1, (len(lines) - 1) // pieces)
        for start in range(1, len(lines), size):
            smaller = lines[:start] + lines[start + size:]
            if shows(smaller):
                lines, pieces = smaller, max(pieces - 1, 2)
                break
        else:
            if size == 1:
                break
            pieces *= 2
    return lines


def simpler_lines(line, lines):
    """What might stand in the place of a line, the simplest first."""
    if line[0] == "settle":
        return [["turn", "1"], ["turn", "4"]]
    if line[0] == "turn":
        return [["turn", str(less)] for less in sorted({1, int(line[1]) // 2, int(line[1]) - 1}) if 0 < less < int(line[1])]
    if line[0] not in ("call", "only"):
        return []
    name, own = line[2], "o" + line[1]
    is_used = any(part in (name + ".f", name + ".r") for other in lines for word in other for part in word.split("/"))
    result = [["call"] + line[1:]] if line[0] == "only" else []
    for mode in (["self", "echo"] if is_used else ["ping", "self", "echo"]):
        if mode == line[4]:
            break
        operand = line[5] if mode in TAKES_CAPABILITY and line[4] in TAKES_CAPABILITY else own if mode == "echo" else "-"
        if is_used or mode not in GIVES_CAPABILITY or line[4] in GIVES_CAPABILITY:
            result.append(line[:4] + [mode, operand] + line[6:])
    if "/" in line[5]:
        result.append(line[:5] + [line[5].split("/")[0]] + line[6:])
    if line[4] in TAKES_CAPABILITY and line[5] not in (own, "-"):
        result.append(line[:5] + [own] + line[6:])
    if line[4] == "slowtail":
        result.append(line[:4] + ["tail"] + line[5:])
    if line[4] == "slowget":
        result.append(line[:4] + ["get"] + line[5:])
    if line[4] in ("get", "slowget") and line[5] != "-":
        result.append(line[:5] + ["-"] + line[6:])
    return result


def simplify(lines, shows):
    for at in range(1, len(lines)):
        for simpler in simpler_lines(lines[at], lines):
            changed = lines[:at] + [simpler] + lines[at + 1:]
            if shows(changed):
                lines = changed
                break
    return lines


def renumbered(lines):
    """The same script with its calls named c1, c2 and so on, if nothing else changes by that."""
    names = {}
    for line in lines[1:]:
        if line[0] in ("call", "only", "vow", "host"):
            names[line[2]] = line[2][0] + str(len(names) + 1)

    def renamed(word):
        parts = [part.partition(".") for part in word.split("/")]
        return "/".join(names.get(head, head) + dot + tail for head, dot, tail in parts)

    result = [lines[0]]
    for line in lines[1:]:
        words = [renamed(word) for word in line]
        if line[0] in ("call", "only") and len(line) > 6:
            words[6] = words[2][1:]
        result.append(words)
    return result


def shrink(lines, shows):
    """The smallest script that is found for which `shows` holds; it must hold for this one."""
    while True:
        before = lines
        for smaller in without_vat_3(lines):
            if shows(smaller):
                lines = smaller
                break
        lines = fewer_lines(lines, shows)
        lines = simplify(lines, shows)
        if lines == before:
            break
    tidy = renumbered(lines)
    return tidy if shows(tidy) else lines
