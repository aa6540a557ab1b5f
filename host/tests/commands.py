"""commands.py TREE PAGE...: runs every command that the pages show, in their order, with the programs of an installation, and
compares what it prints. A Markdown page's commands stand in indented blocks behind "$ ", a man page's in its displays; the lines
up to the next command are the output, where "..." at a line's end or alone stands for more. "cat FILE" makes the file: its lines
are what is shown. A page's words of the programs are held to what these have: "airstate-sheet table" must be a use of
airstate-sheet. Prints "commands: N checks, M failures"."""

import os
import re
import subprocess
import sys
import tempfile
from pathlib import Path

ROFF = {r"\(aq": "'", r"\(S3": "³", r"\e": "\\", r"\&": "", r"\(S2": "²"}


def unroff(text):
    for escape, character in ROFF.items():
        text = text.replace(escape, character)
    return text


def blocks(page):
    """the displays of a page, each a list of lines"""
    text = page.read_text()
    if page.suffix == ".md":
        return [[line[4:] for line in found.splitlines()] for found in re.findall(r"(?:^    .*\n?)+", text, re.MULTILINE)]
    displays = re.findall(r"^\.Bd -literal[^\n]*\n(.*?)^\.Ed", text, re.MULTILINE | re.DOTALL)
    return [unroff(found).splitlines() for found in [*displays, *re.findall(r"^\.Dl (.*)$", text, re.MULTILINE)]]


def commands(lines):
    """(command, output lines) of each command of a display"""
    found = []
    for line in lines:
        if line.startswith("$ "):
            found.append((line[2:], []))
        elif found and found[-1][0].endswith("\\") and not found[-1][1]:
            found[-1] = (found[-1][0][:-1] + line.strip(), [])
        elif found:
            found[-1][1].append(line)
    return found


def words(text):
    """of a man page lines are broken to fit, so that blanks do not count"""
    return " ".join(text.split())


def same(shown, printed):
    pattern = re.escape(words(shown)).replace(r"\.\.\.", ".*")
    return re.fullmatch(pattern, words(printed)) is not None


def run(command, shown, folder, environment):
    """what is wrong with a command, or nothing"""
    if made := re.fullmatch(r"cat (\S+)", command):
        (folder / made[1]).write_text("".join(line + "\n" for line in shown))
        return ""
    done = subprocess.run(["sh", "-c", command], cwd=folder, env=environment, stdout=subprocess.PIPE, stderr=subprocess.STDOUT, timeout=60)
    printed = done.stdout.decode()
    return "" if same("\n".join(shown), printed) else f"{command}\nshown:\n" + "\n".join(shown) + f"\nprinted:\n{printed}"


def uses(tree):
    """the words behind each program's name that its help shows"""
    found = {}
    for program in ("sheet", "plot", "checklist"):
        text = subprocess.run([tree / "bin" / f"airstate-{program}", "--help"], check=True, capture_output=True).stdout.decode()
        found[f"airstate-{program}"] = set(re.findall(rf"airstate-{program} ([a-z]+)\b", text))
    return found


def named(page, known):
    """each "airstate-sheet WORD" of a page, with whether there is such a use"""
    for program, word in re.findall(r"(?<![\w-])(airstate-(?:sheet|plot|checklist))`? ([a-z]+)`", page.read_text()):
        yield f"{program} {word}", word in known.get(program, ())


def prepare(tree, folder):
    """the files that pages take for granted: the samples, a sheet, and one of runs"""
    for sample in (tree / "share" / "airstate" / "samples").iterdir():
        (folder / sample.name).write_bytes(sample.read_bytes())
    (folder / "sheet.eas").write_bytes((folder / "sample.eas").read_bytes())
    text = b"name,pressure_Pa,density_kg_m3\nnozzle 1,1251,0.04\nreservoir,13211000,9.753\n"
    subprocess.run([tree / "bin" / "airstate-sheet", "pack", "-o", folder / "runs.eas"], input=text, check=True, capture_output=True)


def main(tree, *pages):
    tree = Path(tree).resolve()
    checks, failures = 0, []
    environment = {**os.environ, "PATH": f"{tree / 'bin'}:/usr/bin:/bin", "LC_ALL": "C.UTF-8"}
    known = uses(tree)
    for page in map(Path, pages):
        with tempfile.TemporaryDirectory() as folder:
            prepare(tree, Path(folder))
            for display in blocks(page):
                loose = [line for line in display if line.lstrip().startswith("airstate-") and not re.match(r"airstate-[a-z]+: ", line)]
                if not display[0].startswith("$ ") and loose:
                    failures.append(f"{page}: a command is not shown behind $: {loose[0]}")
                for command, shown in commands(display):
                    checks += 1
                    if fault := run(command, shown, Path(folder), environment):
                        failures.append(f"{page}: {fault}")
        for use, is_known in named(page, known):
            checks += 1
            if not is_known:
                failures.append(f"{page}: {use} is no use of the program")
    print("\n".join([*failures, f"commands: {checks} checks, {len(failures)} failures"]))
    sys.exit(len(failures) > 0)


main(*sys.argv[1:])
