#!/usr/bin/env python3
"""Lists the places in crates/*/src that are written in the forms of the older language, by the points of
docs/DESIGN-PASS.md: python3 tools/old_forms.py [COMMIT] [--list]. Without a commit the checkout is read. Status 0."""
import collections
import re
import subprocess
import sys

ABSENT = "Refused|Nothing|NoElement|Unknown|Broken|Failed|Missing|TooLong|End|Cut|Good|No|Well|ReadFailed|WriteFailed"
FLAG = r"\s+(?:pub )?(?:refused|handed|found|broken|open): (?:bool|u16|usize),"
KIND = r".*\bkind: u32\b|.*\b(?:if|match) (?:o|kind)\b|\s+pub order: u16"
NUMBERED = r"pub const [A-Z_]+: usize = \d+;"
BY_HAND = r"(?:pub )?fn (?:put_\w+|say_number|digit\w*|\w*number_of|with_byte|two_at|four_at|wide\w*|of_\w+|from_c\w*)\b"


def sources(commit):
    """Each source file's name and text."""
    if commit:
        names = subprocess.run(["git", "ls-tree", "-r", "--name-only", commit, "crates"], capture_output=True, text=True)
    else:
        names = subprocess.run(["git", "ls-files", "crates"], capture_output=True, text=True)
    for name in names.stdout.split("\n"):
        if re.fullmatch(r"crates/\w+/src/\w+\.rt", name):
            if commit:
                yield name, subprocess.run(["git", "show", f"{commit}:{name}"], capture_output=True, text=True).stdout
            else:
                yield name, open(name, encoding="utf-8").read()


def block(lines, i):
    """The lines from i to the bracket that closes what opens there."""
    depth, end = 0, i
    while end < len(lines):
        depth += lines[end].count("{") - lines[end].count("}")
        if depth <= 0 and "}" in lines[end]:
            break
        end += 1
    return lines[i:end + 1]


def functions(text):
    """Each function: its line, its head up to the body, and its body."""
    for m in re.finditer(r"^ *(?:pub(?:\(\w+\))? )?(?:extern \"C\" )?fn (\w+)", text, re.M):
        rest = text[m.start():]
        body = re.search(r"\n *\{\n|\) (?:-> [^{\n]+ )?\{\n", rest)
        if body:
            head, after = rest[:body.end()], rest[body.end():]
            indent = re.match(r" *", rest).group()
            end = after.find("\n" + indent + "}")
            yield text[:m.start()].count("\n") + 1, m.group(1), head, after[:end if end >= 0 else 0]


def places(commit):
    found = collections.defaultdict(list)
    shapes = collections.defaultdict(list)
    for name, text in sources(commit):
        lines = text.split("\n")
        for i, line in enumerate(lines):
            place = f"{name}:{i + 1}: {line.strip()}"
            if re.match(r"(?:pub )?enum ", line):
                if re.search(rf"^\s+(?:{ABSENT})\b", "\n".join(block(lines, i)[1:]), re.M):
                    found[1].append(place)
            numbered = name.endswith("/call.rt") and re.match(NUMBERED, line)
            if re.match(FLAG, line) or re.match(KIND, line) or numbered:
                found[1].append(place)
            counted = re.match(r"\s*while (\w+) (?:<|>) ", line)
            if counted and re.search(rf"\b{counted.group(1)} (?:\+|-)= 1;", "\n".join(block(lines, i))):
                found[3].append(place)
            indexed = re.match(r"\s*for (\w+) in .*\.\.", line)
            if indexed and re.search(rf"\[[^\]]*\b{indexed.group(1)}\b", "\n".join(block(lines, i))):
                found[3].append(place)
            if re.match(r"\s*" + BY_HAND, line) or re.search(r"as_index\(\) [=!]= \w+\.as_index", line):
                found[4].append(place)
            if re.match(r"(?:pub )?enum (?:Going|Progress|Stage|Next|Form)\b", line):
                found[7].append(place)
        for line, function, head, body in functions(text):
            place = f"{name}:{line}: fn {function}"
            bounds = re.search(r"requires[^{]*\{([^}]*)\}", head)
            if bounds and bounds.group(1).count("×") >= 2:
                found[5].append(place)
            if re.search(r"\b(?:at|have|count): usize", head) and re.search(r"\b(?:out|input|buf|line|words): &mut \[", head):
                found[6].append(place)
            tokens = re.sub(r"//.*", "", body)
            tokens = re.findall(r"\w+|[^\w\s]", tokens)
            shape = " ".join("x" if re.match(r"\w", t) and t not in ("if", "match", "while", "for", "return", "let", "mut")
                             else t for t in tokens)
            if len(tokens) > 24:
                shapes[shape].append(place)
    for same in shapes.values():
        if len(same) > 1:
            found[2] += same
    return found


def main():
    commit = next((a for a in sys.argv[1:] if a != "--list"), None)
    found = places(commit)
    for point in range(1, 8):
        print(f"point {point}: {len(found[point])}")
        if "--list" in sys.argv:
            print("".join(f"    {place}\n" for place in sorted(found[point])), end="")


main()
