#!/usr/bin/env python3
"""paper.py LATEX: writes a document with the lines that the program writes as LaTeX: an align* in which each line has its `&=`
and is broken between terms. What stands between \\begin{align*} and \\end{align*} can be pasted into a paper that loads amsmath.
Open and generated lines stay comments."""
import re
import sys

WIDTH = 330.0
HEAD = "\\documentclass{article}\n\\usepackage{amsmath}\n\\allowdisplaybreaks\n\\begin{document}\n\\begin{align*}"
END = "\\end{align*}\n\\end{document}"


def group(text, start):
    """The end of the group in braces that begins at `start`."""
    depth = 0
    for at in range(start, len(text)):
        depth += {"{": 1, "}": -1}.get(text[at], 0)
        if depth == 0:
            return at + 1
    return len(text)


def end_of(text, at):
    """The end of what stands at a place: a group in braces, a command or a letter."""
    if text.startswith("{", at):
        return group(text, at)
    return re.compile(r"\\[A-Za-z]+|(?s:\\?.)").match(text, at).end()


def width(text):
    """About how wide a formula is, in points: a letter has 6, a sign between spaces 14, scripts 0.7 of their size."""
    total, at = 0.0, 0
    while at < len(text):
        if text.startswith("\\frac", at):
            middle = group(text, at + 5)
            end = group(text, middle)
            total += 3 + 0.7 * max(width(text[at + 5 : middle]), width(text[middle:end]))
        elif text[at] in "_^":
            end = end_of(text, at + 1)
            total += 0.75 * width(text[at + 1 : end])
        elif text[at] == "\\":
            end = end_of(text, at)
            total += 0 if text[at:end] == "\\overline" else 7
        else:
            end = at + 1
            total += 14 if text[at] in "+-=" else 0 if text[at] in "{} " else 6
        at = end
    return total


def terms_of(polynomial):
    """The terms of a polynomial, each with its sign."""
    terms, depth = [""], 0
    for word in polynomial.split(" "):
        if word in "+-" and depth == 0 and terms[-1]:
            terms.append("")
        terms[-1] += (" " if terms[-1] else "") + word
        depth += word.count("{") - word.count("}")
    return terms


def rows_of(line):
    """The rows of a line, each at most about WIDTH wide."""
    left, polynomial = line.split(" = ", 1)
    rows, room = [f"{left} &="], WIDTH - width(left) - 14
    free = room
    for term in terms_of(polynomial):
        size = width(term)
        if size > free and free < room:
            rows.append("&\\quad")
            free = room
        rows[-1] += " " + term
        free -= size
    return rows


def main():
    with open(sys.argv[1], encoding="utf-8") as file:
        lines = file.read().splitlines()
    betas = [line.removesuffix(" \\\\") for line in lines if not line.startswith("%")]
    print(*[line for line in lines if line.startswith("%")], HEAD, sep="\n")
    print(" \\\\\n".join(row for line in betas for row in rows_of(line)))
    print(END)


if __name__ == "__main__":
    main()
