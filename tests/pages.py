#!/usr/bin/env python3
"""Runs what pages show: pages.py PST PAGE.., where PST is the launcher. For each page there is a new folder with links to what is at the top of the repository.

The words after the fence of a block say what it is:
  LANGUAGE FILE         a file, which is written to the folder
  LANGUAGE shows FILE   lines of a file of the repository; a line `..` stands for any lines
  console WORD..        commands: bash runs each line `$ COMMAND`, and the lines after it are what it prints, where a line `..` stands for any lines; a line
                        `? N` is the exit status; else it is that of the word `status=N`, or 0. With `varies` the output is one of many, and the first word of
                        each line is compared. With `needs=NAME` it is run only if there is a program NAME, a Python module NAME or, for redis, also a server on Redis's port
  LANGUAGE within FILE  what a file that a command has written holds, whatever its spaces are; `..` stands for anything
  lisp items            items of a model, which has to be accepted
  LANGUAGE not-run      what no test runs; it is listed
  text                  no command and no output
In a table a last cell "`EXPRESSION` is VALUE" is evaluated. Each named file of the repository has to be there. A table of crates has each crate of
crates.txt once, and each type that it names is one of its crate.
"""
import importlib.util, os, re, shutil, socket, subprocess, sys, tempfile
from commands import TOP, fits

CRATES = os.path.join(TOP, "crates")


def blocks(lines):
    """Returns the words after the fence of each block, the number of its first line, and its lines."""
    found, inside = [], False
    for number, line in enumerate(lines, 1):
        if line.startswith("```"):
            inside = not inside
            if inside:
                found.append((line[3:].split(), number + 1, []))
        elif inside:
            found[-1][2].append(line)
    return found


def commands(lines, usual):
    """Returns each command of a block with its lines of output and its status, which is the usual one if none is given."""
    found = []
    for line in lines:
        if line.startswith("$ "):
            found.append([line[2:], [], usual])
        elif line.startswith("? "):
            found[-1][2] = int(line[2:])
        else:
            found[-1][1].append(line)
    return found


def first_words(lines):
    return [line if line == ".." else (line.split() or [""])[0] for line in lines]


def is_there(name):
    if name == "redis":
        try:
            socket.create_connection(("127.0.0.1", 6379), 1).close()
        except OSError:
            return False
        return importlib.util.find_spec("redis") is not None
    return shutil.which(name) is not None or importlib.util.find_spec(name) is not None


class Page:
    """A page with the folder in which its blocks are run."""

    def __init__(self, path, folder, env):
        self.path, self.folder, self.env = path, folder, env
        self.passed = self.failed = 0
        with open(path, encoding="utf-8") as file:
            self.lines = file.read().splitlines()

    def count(self, is_right, number, *told):
        if is_right:
            self.passed += 1
            return
        self.failed += 1
        print(f"{self.path}:{number}: {told[0]}")
        for line in told[1:]:
            print(f"  {line}")

    def ran(self, command):
        done = subprocess.run(["bash", "-c", command], cwd=self.folder, env=self.env, stdin=subprocess.DEVNULL, stdout=subprocess.PIPE, stderr=subprocess.STDOUT, timeout=300)
        return done.stdout.decode(errors="replace").splitlines(), done.returncode

    def run(self, words, number, lines):
        missing = [word for word in words if word.startswith("needs=") and not is_there(word[6:])]
        if missing:
            print(f"{self.path}:{number}: skipped: {' '.join(missing)}")
            return
        as_seen = first_words if "varies" in words else list
        usual = int(dict(word.split("=") for word in words if "=" in word).get("status", 0))
        for command, wanted, status in commands(lines, usual):
            got, ended = self.ran(command)
            self.count(fits(as_seen(wanted), as_seen(got)) and ended == status, number, f"$ {command}", *got, f"? {ended}")

    def write(self, name, lines):
        with open(os.path.join(self.folder, name), "w", encoding="utf-8") as file:
            file.write("\n".join(lines) + "\n")

    def accepts(self, items, state, init):
        """Whether a model with this state and these items is accepted."""
        self.write("shown.model", [f"(model2 shown (state {state}) (init {init}) (command (list call))", *items, ")"])
        return self.ran("pst check --quiet shown.model") == (["ok shown"], 0)

    def block(self, words, number, lines):
        if words[:1] == ["console"]:
            self.run(words[1:], number, lines)
        elif words[1:2] == ["shows"]:
            with open(os.path.join(TOP, words[2]), encoding="utf-8") as file:
                shown = file.read().splitlines()
            self.count(fits(["..", *lines, ".."], shown), number, f"this is not what {words[2]} has")
        elif words[1:2] == ["within"]:
            with open(os.path.join(self.folder, words[2]), encoding="utf-8") as file:
                written = "".join(file.read().split())
            parts = [re.escape("".join(part.split())) for part in "".join(lines).split("..")]
            self.count(re.search(".*".join(parts), written), number, f"this is not what {words[2]} has")
        elif words == ["lisp", "items"]:
            self.count(self.accepts(lines, "int", "0") or self.accepts(lines, "(map text int)", "(map text int)"), number, "these items are refused")
        elif words[1:] == ["not-run"]:
            print(f"{self.path}:{number}: not run: {lines[0]}")
        elif len(words) == 2:
            self.write(words[1], lines)
        else:
            self.count(words == ["text"], number, "no words say what this block is")

    def examples(self):
        """Evaluates the last cell of each row of a table that says what an expression is."""
        for number, line in enumerate(self.lines, 1):
            for text, value in re.findall(r"`(\([^`]*\)|\d+)` is ([^,|]+)", line if line.startswith("|") else ""):
                value = value.strip().strip("`")
                helper = "(fun f ((x int)) int (+ x 1)) " if text.startswith("(f ") else ""
                if value == "empty":
                    right = f"(= 0 (len {text}))"
                elif " and " in value:
                    right = f"(= {text} (list int {value.replace(' and ', ' ')}))"
                else:
                    right = f"(= {text} {value})"
                post, after = (right, "s") if text != "(same r r)" else ("true", f"(if {right} s (div 1 0))")
                call = f"(op shown () int (pre true) (next {after}) (post {post}))"
                model = f"(model2 shown (state int) (init 0) (command (list call (call shown))) {helper}{call})"
                self.write("shown.runs", [model, "(run (prefix (shown)) (left) (right) (replies (0) () ()))"])
                got, status = self.ran("pst judge --quiet shown.runs")
                self.count(got == ["1 explained -"], number, f"{text} is not {value}", *got)

    def files(self):
        """Looks for each file of the repository that the page names."""
        for number, line in enumerate(self.lines, 1):
            for name in re.findall(r"`((?:crates|docs|bench|tests|examples|mutants|tools|stress|assets)/[\w./-]+|pst_\w+/(?:specs|src)/[\w./-]+)`", line) + re.findall(r"(?:\]\(|src(?:set)?=\")([\w./-]+)[)\"]", line):
                at = os.path.join(os.path.dirname(self.path), name)
                self.count(any(os.path.exists(os.path.join(top, name)) for top in (TOP, CRATES)) or os.path.exists(at), number, f"there is no {name}")

    def crates(self):
        """Compares a table with a column `Crate` and a column `Types` with crates.txt and with the sources."""
        named, is_table = [], False
        for number, line in enumerate(self.lines, 1):
            cells = [cell.strip() for cell in line.strip("|").split("|")]
            is_table = line.startswith("|") and (is_table or cells[1:2] + cells[-1:] == ["Crate", "Types"])
            if is_table:
                crates = re.findall(r"`(\w+)`", cells[1])
                named += crates
                for name in re.findall(r"`(\w+)`", cells[-1]):
                    self.count(any(name in types_of(crate) for crate in crates), number, f"no {name} in {cells[1]}")
        if named:
            with open(os.path.join(TOP, "crates.txt"), encoding="utf-8") as lines:
                listed = [line.split(":")[0].split()[0] for line in lines if ":" in line]
            self.count(sorted(named) == sorted(listed), 1, *sorted(set(named) ^ set(listed)))


def types_of(crate):
    """Returns the names of the types and traits that a crate defines."""
    texts = []
    for folder, _, files in os.walk(os.path.join(CRATES, crate, "src")):
        for name in files:
            with open(os.path.join(folder, name), encoding="utf-8") as source:
                texts.append(source.read())
    return set(re.findall(r"^(?:pub(?:\([a-z]+\))? )?(?:struct|enum|trait|type) (\w+)", "\n".join(texts), re.M))


def main(program, *pages):
    passed = failed = 0
    for path in pages:
        with tempfile.TemporaryDirectory() as folder, tempfile.TemporaryDirectory() as room:
            os.symlink(os.path.abspath(program), f"{room}/pst")
            for name in os.listdir(TOP):
                os.symlink(os.path.join(TOP, name), os.path.join(folder, name))
            plain = {name: value for name, value in os.environ.items() if name not in ("COLUMNS", "NO_COLOR")}
            env = {**plain, "PST_HOME": TOP, "PATH": f"{room}:{os.environ['PATH']}"}
            page = Page(path, folder, env)
            for words, number, lines in blocks(page.lines):
                page.block(words, number, lines)
            page.examples()
            page.files()
            page.crates()
            passed, failed = passed + page.passed, failed + page.failed
    print(f"{passed} passed, {failed} failed")
    return 1 if failed else 0


if __name__ == "__main__":
    sys.exit(main(*sys.argv[1:]))
