"""The manual page and the completions of metaplay-fixup say what its help says."""

import shutil
import subprocess
import sys
import tempfile
import unittest

from built import ROOT

sys.path.insert(0, str(ROOT / "packaging"))

from make_fixup_manual import faults, option_of, options, rows, stale  # noqa: E402
from manual_texts import term  # noqa: E402

FOLDER = ROOT / "packaging"


class Made(unittest.TestCase):
    """The files that packaging/make_fixup_manual.py makes."""

    def test_they_are_fresh(self):
        self.assertEqual(stale(), [], "packaging/make_fixup_manual.py writes them")
        self.assertEqual(subprocess.run([FOLDER / "make_fixup_manual.py", "--check"], check=False).returncode, 0)

    def test_the_manual_has_each_option_and_each_fault(self):
        page = (FOLDER / "metaplay-fixup.1").read_text(encoding="utf-8")
        heads = [line.removeprefix(".B ").replace("\\", "") for line in page.splitlines() if line.startswith(".B \\-")]
        self.assertEqual(heads, [it.title for it in options()])
        self.assertGreater(len(heads), 15)
        for name, said in faults():
            self.assertIn(term(name, said), page)
        self.assertIn("\n.TP\n.B MissingFont\nNo folder has a font for a face. ", page)
        self.assertIn("\n.B 4\nout of memory\n", page)

    def test_options_are_read_from_lines_of_help(self):
        lines = "  --fonts DIR [DIR ...]\n{0}folders\n  --alpha {{white,black}}\n{0}one\n  --version, -V         print it\n".format(24 * " ")
        found = [option_of(*row) for row in rows(lines)]
        self.assertEqual([it.title for it in found], ["--fonts DIR...", "--alpha white|black", "--version, -V"])
        self.assertEqual([it.about for it in found], ["folders", "one", "print it"])

    @unittest.skipUnless(shutil.which("man"), "man is not on this machine")
    def test_man_has_no_warning(self):
        words = ["man", "--warnings=w", "--pager=cat", "-l", FOLDER / "metaplay-fixup.1"]
        ran = subprocess.run(words, capture_output=True, text=True, check=True, env={"PATH": "/usr/bin:/bin", "LC_ALL": "C.UTF-8", "MANWIDTH": "80"})
        self.assertEqual(ran.stderr, "")
        self.assertIn("metaplay-fixup --verify ORIGINAL FILE [--text-only]", ran.stdout)


class Completed(unittest.TestCase):
    """What shells complete."""

    def test_bash_completes_options_values_and_folders(self):
        rows = [
            (["--dr"], ["--drop-emf-plus"]),
            (["a.emf", "b.emf", "--al"], ["--alpha", "--allow"]),
            (["--alpha", ""], ["white"]),
            (["a.emf", "--allow", "e"], ["emf-plus"]),
            (["a.emf", "--fonts", "fo"], ["fonts"]),
            (["--out-dir", ""], ["fonts"]),
            (["-"], [f"--{it.name}" for it in options()]),
        ]
        with tempfile.TemporaryDirectory() as folder:
            subprocess.run(["mkdir", "fonts"], cwd=folder, check=True)
            subprocess.run(["touch", "forms.emf"], cwd=folder, check=True)
            for words, wanted in rows:
                script = '. "$1"; shift; compopt() { :; }; COMP_WORDS=(metaplay-fixup "$@"); COMP_CWORD=$#; _metaplay_fixup; printf "%s\\n" "${COMPREPLY[@]}"'
                words = ["bash", "-c", script, "bash", FOLDER / "metaplay-fixup.bash", *words]
                ran = subprocess.run(words, cwd=folder, capture_output=True, text=True, check=True)
                self.assertEqual((ran.stdout.split(), ran.stderr), (wanted, ""), words)

    @unittest.skipUnless(shutil.which("zsh"), "zsh is not on this machine")
    def test_zsh_completes_options_values_and_files(self):
        script = f'_arguments() {{ print -rl -- "$@" }}; . {FOLDER}/_metaplay-fixup'
        ran = subprocess.run(["zsh", "-fc", script], capture_output=True, text=True, check=True)
        said = ran.stdout.splitlines()
        self.assertEqual((len(said), said[-1], ran.stderr), (len(options()) + 1, "*:file:_files", ""))
        for it, line in zip(options(), said):
            self.assertTrue(line.lstrip("*").startswith(f"--{it.name}[{it.about}]"), line)
        self.assertIn("*--allow[with --check: also accept this]:value:(held-deletion emf-plus)", said)
        self.assertIn("--check[reject a result that metaplay won't certify at this size]:W: :H: ", said)

    @unittest.skipUnless(shutil.which("fish"), "fish is not on this machine")
    def test_fish_completes_options_and_values(self):
        for words, wanted in (("--dr", ["--drop-emf-plus"]), ("--allow ", ["emf-plus", "held-deletion"])):
            script = f"source {FOLDER}/metaplay-fixup.fish; complete -C 'metaplay-fixup {words}'"
            ran = subprocess.run(["fish", "--no-config", "-c", script], capture_output=True, text=True, check=True)
            self.assertEqual(sorted(line.split("\t")[0] for line in ran.stdout.splitlines()), wanted, words)


if __name__ == "__main__":
    unittest.main()
