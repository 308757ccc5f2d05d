#!/usr/bin/env python3
"""Runs every command that README.md, recipes/README.md and the manual's page show, and compares what it prints.

    python3 docs/commands.py PROGRAM

A block of commands begins with `$ `; what stands after a command, up to the next, is what it must print, on the output
and on standard error together. A command that goes on over lines is taken whole. The blocks of one document run in its own
folder, one after another, with the files that `prepare` puts there. A comment before a block (`<!-- .. -->`, in the manual
`.\\" ..`) says what is not run: `left out: WHY`; `needs: WORD ..`, programs or files that must be there, or else the block is
left out; `as a user; needs: ..`, where root runs it as nobody. A block that has neither a command nor such a comment is an
error. The status is 0 where nothing differs.
"""
import os, re, shutil, signal, subprocess, sys, tempfile

ROOT = os.path.dirname(os.path.dirname(os.path.abspath(__file__)))
MARK = "\x01command "
SECONDS = 300
PATH = os.environ["PATH"] + ":/usr/sbin:/sbin"


class Block:
    def __init__(self, name, number, lines, comment):
        self.name, self.number, self.lines, self.comment = name, number, lines, comment

    def commands(self):
        """Each command with its line's number and what it must print."""
        found = []
        for number, line in enumerate(self.lines, self.number):
            if line.startswith("$ "):
                found.append([number, line[2:], []])
            elif not found[-1][2] and not is_whole(found[-1][1]):
                found[-1][1] += "\n" + line
            else:
                found[-1][2].append(line)
        return found


def is_whole(command):
    """Whether the shell wants no further line."""
    asked = subprocess.run(["bash", "-n", "-c", command], capture_output=True, text=True)
    return asked.returncode == 0 and not asked.stderr and not command.endswith("\\")


def of_markdown(name):
    """The blocks that are indented by four spaces, or stand between fences."""
    blocks, comment, lines, start, after_blank, fenced = [], "", [], 0, True, False
    text = open(os.path.join(ROOT, name), encoding="utf-8").read().split("\n") + ["end"]
    for number, line in enumerate(text, 1):
        fence = line.startswith("```")
        inside = not fence and (fenced or line.startswith("    ") and (lines or after_blank))
        if inside:
            start = start if lines else number
            lines.append(line if fenced else line[4:])
        elif lines and (fence or fenced or line):
            while not lines[-1]:
                lines.pop()
            blocks.append(Block(name, start, lines, comment))
            comment, lines = "", []
        elif lines:
            lines.append("")
        if said := re.fullmatch(r"<!-- (.*) -->", line):
            comment = said[1]
        fenced ^= fence
        after_blank = not line or said is not None
    return blocks


def of_manual(name):
    """The displays of the manual's page."""
    blocks, comment, lines, start = [], "", None, 0
    for number, line in enumerate(open(os.path.join(ROOT, name), encoding="utf-8").read().split("\n"), 1):
        if line.startswith(".Bd"):
            lines, start = [], number + 1
        elif line.startswith(".Ed"):
            blocks.append(Block(name, start, lines, comment))
            comment, lines = "", None
        elif lines is not None:
            lines.append(line.replace("\\e", "\\").replace("\\-", "-").replace("\\&", ""))
        elif line.startswith('.\\" '):
            comment = line[4:]
    return blocks


def prepare(program, folder):
    """The files that the documents' commands take as there."""
    shutil.copy(program, os.path.join(folder, "nfstream"))
    shutil.copytree(os.path.join(ROOT, "recipes"), os.path.join(folder, "recipes"))
    line = "Vie\u0302\u0323t Nam\n".encode()
    marks = b"q" + "\u0301".encode() * 40 + b"\n"
    os.mkdir(os.path.join(folder, "texts"))
    os.mkdir(os.path.join(folder, "texts/sub"))
    files = {
        "text": line,
        "big.txt": line * 100000,
        "names": line,
        "log": b"login caf\xe9 ok\nlogout caf\xc3\xa9 ok\n",
        "texts/a.txt": line,
        "texts/c.txt": marks,
        "texts/sub/b.txt": b"ab\xc3(\n",
    }
    for name, content in files.items():
        with open(os.path.join(folder, name), "wb") as file:
            file.write(content)


def missing(comment):
    """Why the block is not run, if it is not."""
    if comment.startswith("left out: "):
        return comment[len("left out: ") :]
    for word in comment.partition("needs: ")[2].split():
        if not (os.path.exists(word) if "/" in word else shutil.which(word, path=PATH)):
            return f"{word} is not there"
    return None


def run(block, folder):
    """What each command of the block prints."""
    script = ""
    for number, command, _ in block.commands():
        script += f"printf '\\n{MARK}{number}\\n'\n{command}\n"
    words = dict(os.environ, PATH=folder + ":" + PATH, LC_ALL="C.UTF-8")
    user = ["runuser", "-u", "nobody", "--"] if block.comment.startswith("as a user") and os.getuid() == 0 else []
    with tempfile.TemporaryFile() as out:
        shell = subprocess.Popen(
            [*user, "bash", "-c", script], cwd=folder, env=words, stdin=subprocess.DEVNULL, stdout=out, stderr=out, start_new_session=True
        )
        try:
            shell.wait(SECONDS)
        except subprocess.TimeoutExpired:
            pass
        try:
            os.killpg(shell.pid, signal.SIGTERM)
        except ProcessLookupError:
            pass
        shell.wait()
        out.seek(0)
        printed = out.read().decode(errors="replace")
    answers = {}
    for part in printed.split("\n" + MARK)[1:]:
        number, _, rest = part.partition("\n")
        answers[int(number)] = rest
    return answers


def compare(block, folder):
    """Tells each command of the block that does not print what is shown, and counts them."""
    answers, differ = run(block, folder), 0
    for number, command, lines in block.commands():
        wanted = "\n".join(lines).rstrip("\n")
        printed = answers.get(number, "(it was not reached)").rstrip("\n")
        if printed != wanted:
            differ += 1
            print(f"{block.name}:{number}: {command.splitlines()[0]}\n  shown:   {wanted!r}\n  printed: {printed!r}")
    return differ


def main():
    program = os.path.abspath(sys.argv[1])
    commands = differ = left_out = 0
    for name, blocks in (("README.md", of_markdown), ("recipes/README.md", of_markdown), ("docs/nfstream.1", of_manual)):
        with tempfile.TemporaryDirectory() as folder:
            os.chmod(folder, 0o755)
            prepare(program, folder)
            for block in blocks(name):
                why = missing(block.comment)
                if why is not None:
                    left_out += 1
                    print(f"{name}:{block.number}: left out: {why}")
                elif not block.lines[0].startswith("$ "):
                    differ += 1
                    print(f"{name}:{block.number}: neither a command nor left out: {block.lines[0]}")
                else:
                    commands += len(block.commands())
                    differ += compare(block, folder)
    print(f"{commands} commands run, {differ} differ, {left_out} blocks left out")
    return 1 if differ else 0


if __name__ == "__main__":
    sys.exit(main())
