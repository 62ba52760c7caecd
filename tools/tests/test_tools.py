"""Tests of the scripts under tools/, and of what the documents show of them and of the program.

They need a built program: the variable AOS, or crates/aos_main/out/aos_main. Run them at the top of the repository:
python3 -m unittest discover -s tools/tests
"""
import importlib.machinery
import importlib.util
import os
import re
import shlex
import shutil
import subprocess
import sys
import tempfile
import unittest

sys.dont_write_bytecode = True
TOP = os.path.dirname(os.path.dirname(os.path.dirname(os.path.realpath(__file__))))
os.environ.setdefault("AOS", os.path.join(TOP, "crates", "aos_main", "out", "aos_main"))
sys.path.insert(0, os.path.join(TOP, "tools"))
import aos_tools


def script_module(name):
    """A script under tools/ as a module."""
    loader = importlib.machinery.SourceFileLoader(name.replace("-", "_"), os.path.join(TOP, "tools", name))
    module = importlib.util.module_from_spec(importlib.util.spec_from_loader(loader.name, loader))
    loader.exec_module(module)
    return module


def said(line):
    """The status of a command line at the top of the repository, and what it says on out and err."""
    words = line.replace("./aos ", '"$AOS" ') if line.startswith("./aos ") else line
    done = subprocess.run(["bash", "-c", words], cwd=TOP, stdout=subprocess.PIPE, stderr=subprocess.STDOUT,
                          stdin=subprocess.DEVNULL)
    return done.returncode, done.stdout.decode("utf-8", "replace")


def shown(document, start):
    """The command lines in the fenced parts of a document that begin so, each with what the document shows behind it."""
    with open(os.path.join(TOP, document), encoding="utf-8") as file:
        parts = file.read().split("```\n")[1::2]
    for part in parts:
        if part.startswith("$ "):
            for one in re.split(r"^\$ ", part, flags=re.M)[1:]:
                line, _, text = one.partition("\n")
                if line.startswith(start):
                    yield line, text


class Transcripts(unittest.TestCase):
    """What the documents show comes out."""

    def compare(self, document, start):
        count = 0
        for line, text in shown(document, start):
            count += 1
            with self.subTest(line=line):
                self.assertEqual(said(line)[1], text)
        self.assertGreater(count, 0)

    def test_documents(self):
        for document in ("README.md", "docs/EXAMPLES.md", "docs/COMMANDS.md", "docs/SCRIPTS.md"):
            self.compare(document, ("tools/", "./aos "))


class Why(unittest.TestCase):
    """aos-why."""

    why = script_module("aos-why")

    def of_text(self, text):
        """What it says of a check of a text."""
        with tempfile.TemporaryDirectory() as folder:
            path = os.path.join(folder, "M.Mod")
            with open(path, "w") as file:
                file.write(text)
            status, out = said("tools/aos-why check %s" % path)
        return status, out.replace(folder + "/", "")

    def test_help(self):
        self.assertEqual(said("tools/aos-why --help")[0], 0)

    def test_rules_and_traps_have_rows(self):
        rules = self.why.table("What is refused")
        self.assertEqual(sorted(rules), list(range(1, 27)) + list(range(30, 50)) + [99])
        self.assertEqual(sorted(self.why.table("Traps")), list(range(1, 16)))

    def test_missing_brackets(self):
        status, out = self.of_text("MODULE M;\nVAR x: SET;\nPROCEDURE F(): SET; BEGIN RETURN {} END F;\n"
                                   "BEGIN\n\tx := F\nEND M.\n")
        self.assertEqual(status, 1)
        self.assertIn("    5 | \tx := F\n      | \t  ^\n  Rule 31, value doesn't fit: ", out)
        self.assertIn("it wants its brackets: F().", out)

    def test_missing_end(self):
        out = self.of_text("MODULE M;\nBEGIN\n  IF TRUE THEN (* END *)\nEND M.\n")[1]
        self.assertIn("M.Mod:4:5: rule 6: syntax\n    4 | END M.\n      |     ^\n", out)
        self.assertIn("The END before it closes the IF of 3:3.", out)
        self.assertIn("Open there, the innermost first: MODULE of 1:1.", out)

    def test_small_letters(self):
        self.assertIn("written in capitals", self.of_text("module M; END M.")[1])

    def test_lines_from_input(self):
        lines = '"$AOS" replay --script examples/transfer-dead.script examples/Transfer.Mod 2>&1'
        out = said(lines + " | tools/aos-why examples/Transfer.Mod")[1]
        self.assertIn("waiting 1 enter object 2 at Transfer:12:7\n   12 | ", out)
        self.assertIn("Activity 1 asks for the lock of object 2", out)

    def test_a_short_script(self):
        with tempfile.NamedTemporaryFile("w", suffix=".script") as file:
            file.write(aos_tools.Script(1, 1000, [("s", 0, 2)]).text())
            file.flush()
            status, out = said("tools/aos-why replay --script %s examples/Lost.Mod" % file.name)
        self.assertEqual(status, 9)
        self.assertTrue(out.startswith("script ended after 2 steps\n  The script is used up"))

    def test_no_command(self):
        status, out = said("tools/aos-why run --workers 17 examples/Lost.Mod")
        self.assertEqual(status, 2)
        self.assertIn("a number out of its range", out)

    def test_other_lines_are_passed_on(self):
        self.assertEqual(said("printf 'one\\ntwo\\n' | tools/aos-why")[1][:3], "Tel")
        self.assertEqual(said("printf 'one\\ntwo\\n' | tools/aos-why M.Mod")[1], "one\ntwo\n")


class When(unittest.TestCase):
    """aos-when."""

    when = script_module("aos-when")

    def test_help(self):
        self.assertEqual(said("tools/aos-when --help")[0], 0)

    def test_halving(self):
        for most in range(20):
            for first in range(most + 1):
                self.assertEqual(self.when.least(most, lambda count: count >= first), first)

    def test_one_step_less_is_too_early(self):
        status, out = said("tools/aos-when --out 1 --script examples/one-lost.script examples/Lost.Mod")
        self.assertEqual(status, 0)
        script = aos_tools.parse_script(aos_tools.read_text(os.path.join(TOP, "examples/one-lost.script")), "")
        steps, files = int(out.split(":")[0]), [os.path.join(TOP, "examples/Lost.Mod")]
        self.assertEqual(aos_tools.replay(script.first(steps), files).out.strip(), "1")
        self.assertEqual(aos_tools.replay(script.first(steps - 1), files).out, "")

    def test_the_next_line(self):
        with tempfile.NamedTemporaryFile("w", suffix=".script") as file:
            file.write(aos_tools.Script(3, 1000, [("s", 0, 9)]).text())
            file.flush()
            line = "tools/aos-when --end --worker 0 --script %s examples/Lost.Mod" % file.name
            self.assertEqual(said(line), (0, "19: s 0 9 | s 0 19\n"))

    def test_never(self):
        self.assertEqual(said("tools/aos-when --out 7 examples/Lost.Mod"), (1, "never\n"))


class Shuffle(unittest.TestCase):
    """aos-shuffle."""

    def test_help(self):
        self.assertEqual(said("tools/aos-shuffle --help")[0], 0)

    def test_scripts_come_to_their_outcomes(self):
        with tempfile.TemporaryDirectory() as folder:
            line = "tools/aos-shuffle --schedules 30 --seed 5 --keep %s examples/Lost.Mod" % folder
            status, out = said(line)
            self.assertEqual(status, 0)
            rows = [row.split() for row in out.split("\n\n")[0].split("\n")[1:]]
            self.assertEqual(sum(int(row[0]) for row in rows), 30)
            for number, (_, code, text) in enumerate(rows, 1):
                script = aos_tools.parse_script(aos_tools.read_text("%s/%d.script" % (folder, number)), "")
                seen = aos_tools.replay(script, [os.path.join(TOP, "examples/Lost.Mod")])
                self.assertEqual((seen.status, seen.out), (int(code), text + "\n"))
            self.assertEqual(said(line), (status, out))

    def test_refused_text(self):
        self.assertEqual(said("tools/aos-shuffle examples/Reading.Mod"),
                         (1, "examples/Reading.Mod:2:8: rule 9: imported module not given\n"))


class Names(unittest.TestCase):
    """The names that documents cite."""

    names = script_module("../.ci/names")

    def test_citations(self):
        text = "one\n| `aos_base/src/text.rt`: `Pos`, `Gone`; `aos_base/src/set.rt` | `x` |\n"
        self.assertEqual(list(self.names.citations(text)),
                         [(2, "aos_base/src/text.rt", ["Pos", "Gone"]), (2, "aos_base/src/set.rt", [])])
        self.assertTrue(self.names.is_there("aos_base/src/text.rt", "Pos"))
        self.assertFalse(self.names.is_there("aos_base/src/text.rt", "Gone"))
        self.assertFalse(self.names.is_there("aos_base/src/text.rt", "Po"))

    def test_moved_places_are_mended(self):
        for old, new in (("`aos_gone/src/awaits.rt`: `await_of`", "`aos_check_parts/src/awaits.rt`: `await_of`"),
                         ("`aos_base/src/text.rt`: `Pos`, `NowhereAtAll`", "`aos_base/src/text.rt`: `Pos`, `NowhereAtAll`")):
            self.assertEqual(self.names.CITED.sub(self.names.mended, "| %s | x |" % old), "| %s | x |" % new)

    def test_numbers_are_written(self):
        text = self.names.read("docs", "PROVED.md")
        self.assertEqual(self.names.counted(re.sub(r"^[\d,]+ cases", "1 cases", text, flags=re.M)), self.names.counted(text))

    def test_names_in_files(self):
        text = "(`%s` in `crates/%s/src/awaits.rt`)"
        self.assertEqual(self.names.NAMED.sub(self.names.renamed, text % ("await_of", "aos_gone")), text % ("await_of", "aos_check_parts"))
        self.assertEqual(self.names.NAMED.sub(self.names.renamed, text % ("nothing_so", "aos_gone")), text % ("nothing_so", "aos_gone"))

    def test_each_crate_has_a_layer(self):
        self.assertEqual(list(self.names.layers()), [])


class Sentences(unittest.TestCase):
    """The lengths of sentences."""

    def test_long_ones(self):
        sentences = script_module("../.ci/sentences")
        text = "One. %s `a b. C` d.\n```\n%s\n```\n| `x` | Two. %s |\n" % ("W " * 24, "W " * 30, "W " * 26)
        self.assertEqual([(line, count) for line, count, _ in sentences.long_ones(text)], [(1, 26), (5, 26)])


class Editors(unittest.TestCase):
    """The completion of words for bash, the syntax file for Vim and the page of the manual."""

    def offered(self, *words):
        """What bash offers for the last word."""
        quoted = " ".join(shlex.quote(word) for word in words)
        done = said("source tools/aos.bash; COMP_WORDS=(%s); COMP_CWORD=%d; _aos; printf '%%s\n' \"${COMPREPLY[@]}\"" %
                    (quoted, len(words) - 1))
        return done[1].split()

    def test_completion(self):
        self.assertEqual(self.offered("aos", "r"), ["run", "replay"])
        self.assertEqual(self.offered("aos", "replay", "--"), ["--script", "--watch"])
        self.assertEqual(self.offered("aos", "run", "--workers", "=", "1"), ["1", "16"])
        self.assertEqual(self.offered("aos", "run", "examples/Los"), ["examples/Lost.Mod"])
        self.assertEqual(self.offered("aos", "gen", ""), [])

    def test_syntax_has_all_words(self):
        text = aos_tools.read_text(os.path.join(TOP, "docs", "LANGUAGE.md"))
        listed = re.findall(r"^- (?:Reserved words are no names: `|types: |values: |functions: |procedures: )([A-Z ,]+)", text, re.M)
        self.assertEqual(len(listed), 5)
        words = sorted(re.findall(r"[A-Z]+", " ".join(listed)))
        syntax = aos_tools.read_text(os.path.join(TOP, "tools", "aos.vim"))
        known = " ".join(re.findall(r"^syntax keyword aos(?!Todo)\w+ (.*)$", syntax, re.M))
        self.assertEqual(sorted(known.split()), words)

    def test_page_has_all_commands_and_options(self):
        page = aos_tools.read_text(os.path.join(TOP, "docs", "aos.1")).replace("\\-", "-")
        table = aos_tools.read_text(os.path.join(TOP, "docs", "COMMANDS.md")).split("\n## Statuses")[0]
        for word in re.findall(r"^\| `aos (\w+)", table, re.M) + re.findall(r"\[(--\w+)", table):
            self.assertIn(word, page)


class Launcher(unittest.TestCase):
    """./aos, in a repository of two crates beside a command rt that proves nothing."""

    def called(self, rt):
        """The status, out and err of ./aos with this text of a command rt, or with none."""
        with tempfile.TemporaryDirectory() as top:
            shutil.copy(os.path.join(TOP, "aos"), top)
            for name in ("aos_base", "aos_main", "aos_other"):
                os.makedirs(os.path.join(top, "crates", name, "src"))
            self.write(os.path.join(top, "HANDLES"), "")
            self.write(os.path.join(top, "crates.txt"), "aos_base:\naos_main: aos_base\naos_other: aos_base\n")
            if rt:
                self.write(os.path.join(top, "bin", "rt"), "#!/bin/bash\n" + rt)
            path = os.path.join(top, "bin") + ":/usr/bin:/bin"
            done = subprocess.run([os.path.join(top, "aos"), "run", "a b"], env={"PATH": path}, cwd=top,
                                  stdout=subprocess.PIPE, stderr=subprocess.PIPE, stdin=subprocess.DEVNULL)
        return done.returncode, done.stdout.decode(), re.sub(r"\d+:\d\d min", "TIME", done.stderr.decode())

    def write(self, path, text):
        os.makedirs(os.path.dirname(path), exist_ok=True)
        with open(path, "w") as file:
            file.write(text)
        os.chmod(path, 0o755)

    def test_progress_and_the_program(self):
        status, out, err = self.called('cat crates.txt >&2; echo "rt: aos_base proved"; echo "rt: aos_main is kept: x"\n'
                                       "mkdir crates/aos_main/out; printf '#!/bin/bash\necho \"$@\"; exit 3' >crates/aos_main/out/aos_main\n"
                                       "chmod +x crates/aos_main/out/aos_main\n")
        self.assertEqual((status, out), (3, "run a b\n"))
        self.assertIn("aos: proving and building 2 crates first", err)
        self.assertIn("\naos: 1 of 2 after TIME: aos_base\naos: 2 of 2 after TIME: aos_main\naos: built after TIME\n", err)

    def test_the_last_line_says_why(self):
        status, out, err = self.called('echo "rt: aos_base proved"; echo "rt: aos_main FAILED: no room"; echo end; exit 1\n')
        self.assertEqual((status, out), (70, ""))
        self.assertIn("rt: aos_main FAILED: no room", err.splitlines()[-1])

    def test_no_rt(self):
        if not os.path.exists("/usr/bin/rt") and not os.path.exists("/bin/rt"):
            status, _, err = self.called("")
            self.assertEqual(status, 70)
            self.assertIn("the command rt isn't on the PATH", err.splitlines()[-1])


class Scripts(unittest.TestCase):
    """The scripts that all of them write."""

    def test_lines(self):
        script = aos_tools.Script(2, 10, [("s", 0, 1), ("s", 0, 2), ("t", 0), ("s", 0, 3)])
        self.assertEqual(script.lines(), ["s 0 3", "t 0", "s 0 3"])
        self.assertEqual(script.steps(), 7)
        self.assertEqual(script.first(5).lines(), ["s 0 3", "t 0", "s 0 1"])
        self.assertEqual(aos_tools.parse_script("noise\n" + script.text(), "").lines(), script.lines())


if __name__ == "__main__":
    unittest.main()
