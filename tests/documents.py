"""Runs the commands that documents show, and compares what they print with what is shown. tests/documents.sh runs it.

A block that begins with ```console has commands behind `$ `, each with what it prints below it; a line `...` stands for any lines.
The blocks of a document are run in the order in which they stand there, each in one shell, in an empty folder that has the top of
the repository in it as links. `...` within a shown line stands for any text. What stands behind `console`:

    background   the block goes on beside those behind it, and is compared when all of the document have ended
    nginx        it is skipped where nginx isn't installed
    systemd      it is skipped where systemd-socket-activate isn't installed

A block ```LANGUAGE NAME with any other language is a file of that name, which is written first. All other blocks are only to be
read. Prints a line for each command; the status is 1 where one prints something else. `documents.py [PROGRAM]`.
"""
import os
import re
import shutil
import signal
import subprocess
import sys
import tempfile
import time

TOP = os.path.dirname(os.path.dirname(os.path.abspath(__file__)))
DOCUMENTS = ["README.md", "docs/OPERATING.md", "docs/QUESTIONS.md", "docs/INTEGRATION.md"]
MARK = "---- command "
SECONDS = 120
NEEDS = {"nginx": "nginx", "systemd": "systemd-socket-activate"}


def blocks(text):
    """The words behind ``` and the lines of each fenced block."""
    for info, body in re.findall(r"^```([^\n]+)\n(.*?)^```$", text, re.M | re.S):
        yield info.split(), body.splitlines()


def commands(lines):
    """Each command of a block, with the lines that are shown below it."""
    found = []
    for line in lines:
        if line.startswith("$ "):
            found.append([line[2:], []])
        elif found and found[-1][0].endswith("\\"):
            found[-1][0] += "\n" + line
        else:
            found[-1][1].append(line)
    return found


def is_line(shown, printed):
    """Whether this line was printed, where `...` is any text."""
    return re.fullmatch(".*".join(re.escape(part) for part in shown.split("...")), printed) is not None


def fits(shown, printed):
    """Whether these lines were printed, where `...` is any lines."""
    if not shown:
        return not printed
    if shown[0] == "...":
        return any(fits(shown[1:], printed[i:]) for i in range(len(printed) + 1))
    return bool(printed) and is_line(shown[0], printed[0]) and fits(shown[1:], printed[1:])


class Block:
    """The commands of a block, in a shell of their own. What that prints, on both outputs, goes into a file."""

    def __init__(self, folder, lines):
        self.commands = commands(lines)
        self.output = tempfile.TemporaryFile()
        script = "trap 'kill $(jobs -p) 2>/dev/null; wait' EXIT\n"
        for i, (command, _) in enumerate(self.commands):
            script += f"echo '{MARK}{i}'\n{command}\n"
            if command.endswith("&"):
                script += "sleep 1\n"  # until it listens
        self.shell = subprocess.Popen(["bash", "-c", script], cwd=folder, stdin=subprocess.DEVNULL, stdout=self.output,
                                      stderr=subprocess.STDOUT, start_new_session=True)

    def printed(self):
        self.output.seek(0)
        return self.output.read().decode(errors="replace").replace("\r", "")

    def has_begun(self):
        """Waits until the first command has printed something."""
        for _ in range(10 * SECONDS):
            if self.printed().count("\n") > 1 or self.shell.poll() is not None:
                return
            time.sleep(0.1)

    def compare(self, document):
        """Waits for the end, and tells whether all that was printed is what is shown."""
        try:
            self.shell.wait(SECONDS)
        except subprocess.TimeoutExpired:
            os.killpg(self.shell.pid, signal.SIGTERM)
            self.shell.wait()
        texts = re.split(rf"^{MARK}\d+\n", self.printed(), flags=re.M)[1:]
        good = True
        for i, (command, shown) in enumerate(self.commands):
            printed = texts[i].rstrip("\n").split("\n") if i < len(texts) and texts[i].strip() else []
            same = i < len(texts) and fits(shown, printed)
            print(f"{'ok   ' if same else 'WRONG'} {document}: {command.splitlines()[0]}", flush=True)
            if not same:
                print("shown:", *shown, "printed:", *(printed if i < len(texts) else ["(it didn't run)"]), sep="\n")
            good = good and same
        return good


def run(document, folder):
    """Runs the blocks of a document, and tells whether each prints what is shown."""
    good, beside = True, []
    with open(os.path.join(TOP, document), encoding="utf-8") as file:
        text = file.read()
    for info, lines in blocks(text):
        if info[0] != "console":
            if len(info) == 2:
                with open(os.path.join(folder, info[1]), "w", encoding="utf-8") as file:
                    file.write("\n".join(lines) + "\n")
            continue
        absent = [NEEDS[word] for word in info if word in NEEDS and not shutil.which(NEEDS[word], path=os.environ["PATH"] + ":/usr/sbin")]
        if absent:
            print(f"skip  {document}: {lines[0][2:]}: {absent[0]} isn't installed")
            continue
        block = Block(folder, lines)
        if "background" in info:
            block.has_begun()
            beside.append(block)
            continue
        good = block.compare(document) and good
    for block in beside:
        good = block.compare(document) and good
    return good


def main():
    good = True
    for document in DOCUMENTS:
        with tempfile.TemporaryDirectory() as folder:
            os.chmod(folder, 0o755)
            for name in os.listdir(TOP):
                if not name.startswith(".") and ".db" not in name and not (name == "as2desk" and len(sys.argv) > 1):
                    os.symlink(os.path.join(TOP, name), os.path.join(folder, name))
            if len(sys.argv) > 1:
                os.symlink(os.path.abspath(sys.argv[1]), os.path.join(folder, "as2desk"))
            good = run(document, folder) and good
    return 0 if good else 1


if __name__ == "__main__":
    sys.exit(main())
