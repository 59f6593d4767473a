"""What is said of wrong command lines, whole: the reason, and the usage of the command. No contract knows these texts. All of it goes to standard
error, and standard output gets nothing."""

import unittest

from built import DOT, Answer, answer, for_each_program

MORE = "\n\nFor more information, try '--help'.\n"

# How a command is called, by its name; of `metaplay` itself under no name.
USAGE = {
    "": "metaplay <COMMAND>",
    "show": "metaplay show [OPTIONS] <FILE> <W> <H>",
    "prepare": "metaplay prepare [OPTIONS] <FILE> <W> <H> <OUT>",
    "check": "metaplay check <FILE> <CERT>",
    "play": "metaplay play [OPTIONS] <FILE> <CERT> <W> <H>",
    "over": "metaplay over <FILE> <CERT> <IMAGE>",
    "list": "metaplay list [OPTIONS] <FILE>",
    "info": "metaplay info [OPTIONS] <FILE>...",
}

# The right words of each command.
RIGHT = {
    "show": "show a 4 4",
    "prepare": "prepare a 4 4 b",
    "check": "check a b",
    "play": "play a b 4 4",
    "over": "over a b c",
    "list": "list a",
    "info": "info a",
}

# The commands that take the options for the rules, and those that take a width and a height.
RULED = ("show", "prepare", "list", "info")
SIZED = ("show", "prepare", "play")

# Words that are no width, height or number of rows, and why.
SIDES = [*((side, f"{side} is not in 1..=8192") for side in ("0", "8193", "4294967296")), ("x", "invalid digit found in string")]

# Wrong command lines that name no command, and the reason.
NO_COMMAND = [
    ("", "'metaplay' requires a subcommand but one was not provided\n  [subcommands: show, prepare, check, play, over, list, info, certify, help]"),
    ("draw a.wmf 4 4", "unrecognized subcommand 'draw'"),
    ("shwo a.wmf 4 4", "unrecognized subcommand 'shwo'\n\n  tip: a similar subcommand exists: 'show'"),
    ("help draw", "unrecognized subcommand 'draw'"),
    ("--bands", "unexpected argument '--bands' found"),
    ("--version show", "unexpected argument '--version' found"),
]

# The commands that take each option.
TAKERS = {"--bands": ("play",), "--fit": ("show", "play"), "--profile": RULED, "--allow": RULED}

# Options that are given twice, the commands that they are given to, and the reason.
WRONG_OPTIONS = [
    ("--bands 4 --bands 4", ("play",), "the argument '--bands <ROWS>' cannot be used multiple times"),
    ("--fit --fit", ("show", "play"), "the argument '--fit' cannot be used multiple times"),
    ("--profile core --profile core", RULED, "the argument '--profile <PROFILE>' cannot be used multiple times"),
]

# Options for the rules that aren't right, and the reason.
WRONG_RULES = [
    ("--profile other", "--profile needs core or print"),
    ("--profile=", "--profile needs core or print"),
    ("--profile print --allow other", "--allow needs held-deletion or emf-plus"),
    ("--allow other", "--allow needs held-deletion or emf-plus"),
    ("--allow emf-plus", "--allow needs --profile print"),
    ("--profile core --allow held-deletion", "--allow needs --profile print"),
    ("--profile other --allow other", "--profile needs core or print"),
]


CERTIFY = "metaplay certify [OPTIONS] --out-dir <DIR> <W> <H> <FILE>..."

# Wrong words of `certify`, the reason, and whether its usage is shown.
WRONG_CERTIFY = [
    ("4 4 a", "the following required arguments were not provided:\n  --out-dir <DIR>", CERTIFY.replace("[OPTIONS] ", "")),
    ("--out-dir o 4 4", "the following required arguments were not provided:\n  <FILE>...", CERTIFY.replace("[OPTIONS] ", "")),
    ("--out-dir", "a value is required for '--out-dir <DIR>' but none was supplied", None),
    ("--out-dir o --out-dir o 4 4 a", "the argument '--out-dir <DIR>' cannot be used multiple times", CERTIFY),
    ("--out-dir o --replace --replace 4 4 a", "the argument '--replace' cannot be used multiple times", CERTIFY),
    ("--out-dir o --profile core --profile core 4 4 a", "the argument '--profile <PROFILE>' cannot be used multiple times", CERTIFY),
    ("--out-dir o 4 4 stdin", "certify doesn't read standard input", CERTIFY),
    ("--out-dir o 4 4 a stdin b", "certify doesn't read standard input", CERTIFY),
    ("--out-dir o --profile other 4 4 stdin", "--profile needs core or print", CERTIFY),
]


def arguments_of(name):
    """The arguments of a command that it can't do without, as its usage has them."""
    return [word for word in USAGE[name].split()[2:] if word != "[OPTIONS]"]


class UsageTexts(unittest.TestCase):
    def assert_told(self, program, words, reason, usage=None):
        """Compares what a program answers wrong words with the reason, and with the usage if there is one."""
        text = f"error: {reason}" + (f"\n\nUsage: {usage}" if usage else "") + MORE
        self.assertEqual(answer(program, words, DOT), Answer(2, b"", text.encode()), words)

    @for_each_program
    def test_words_without_a_command(self, program):
        for line, reason in NO_COMMAND:
            self.assert_told(program, line.split(), reason, USAGE[""])

    @for_each_program
    def test_each_command_without_its_last_words(self, program):
        for name, right in RIGHT.items():
            wanted, words = arguments_of(name), right.split()
            self.assertEqual(len(words), 1 + len(wanted))
            for count in range(len(wanted)):
                missing = "".join(f"\n  {word}" for word in wanted[count:])
                usage = " ".join(["metaplay", name, *wanted])
                self.assert_told(program, words[: 1 + count], f"the following required arguments were not provided:{missing}", usage)

    @for_each_program
    def test_each_command_with_a_word_too_many(self, program):
        for name, right in RIGHT.items():
            if name != "info":
                self.assert_told(program, [*right.split(), "more"], "unexpected argument 'more' found", USAGE[name])

    @for_each_program
    def test_each_side_out_of_range(self, program):
        for name in SIZED:
            words = RIGHT[name].split()
            for at, side in enumerate(arguments_of(name), 1):
                if side in ("<W>", "<H>"):
                    for value, why in SIDES:
                        self.assert_told(program, [*words[:at], value, *words[at + 1 :]], f"invalid value '{value}' for '{side}': {why}")
        for value, why in SIDES:
            self.assert_told(program, [*RIGHT["play"].split(), "--bands", value], f"invalid value '{value}' for '--bands <ROWS>': {why}")

    @for_each_program
    def test_options_that_a_command_does_not_know(self, program):
        for option, takers in TAKERS.items():
            for name in sorted(set(RIGHT) - set(takers)):
                reason = f"unexpected argument '{option}' found\n\n  tip: to pass '{option}' as a value, use '-- {option}'"
                self.assert_told(program, [*RIGHT[name].split(), option], reason, USAGE[name].replace(" [OPTIONS]", ""))

    @for_each_program
    def test_options_that_are_given_twice(self, program):
        for options, names, reason in WRONG_OPTIONS:
            for name in names:
                self.assert_told(program, [*RIGHT[name].split(), *options.split()], reason, USAGE[name])

    @for_each_program
    def test_options_without_their_values(self, program):
        for name in RULED:
            for option, value in (("--profile", "PROFILE"), ("--allow", "NAME")):
                reason = f"a value is required for '{option} <{value}>' but none was supplied"
                self.assert_told(program, [*RIGHT[name].split(), option], reason)
        self.assert_told(program, [*RIGHT["play"].split(), "--bands"], "a value is required for '--bands <ROWS>' but none was supplied")

    @for_each_program
    def test_wrong_rules(self, program):
        for options, reason in WRONG_RULES:
            for name in RULED:
                self.assert_told(program, [*RIGHT[name].split(), *options.split()], reason, USAGE[name])

    @for_each_program
    def test_certify(self, program):
        for line, reason, usage in WRONG_CERTIFY:
            self.assert_told(program, ["certify", *line.split()], reason, usage)
        for at, side in ((3, "<W>"), (4, "<H>")):
            for value, why in SIDES:
                words = ["certify", "--out-dir", "o", "4", "4", "a"]
                self.assert_told(program, [*words[:at], value, *words[at + 1 :]], f"invalid value '{value}' for '{side}': {why}")
        for options, reason in WRONG_RULES:
            self.assert_told(program, ["certify", "--out-dir", "o", "4", "4", "a", *options.split()], reason, CERTIFY)

    @for_each_program
    def test_standard_input_twice(self, program):
        for words in (["info", "stdin", "stdin"], ["info", "stdin", "a", "stdin", "--profile", "print"]):
            self.assert_told(program, words, "standard input was given more than once", USAGE["info"])


if __name__ == "__main__":
    unittest.main()
