"""The help of the program and of each command, whole. No contract knows a text of it."""

import unittest

from built import Answer, answer, for_each_program

PROGRAM_HELP = """\
Checks Windows metafiles (WMF, EMF) and plays them on a pixel surface.

The sender of a metafile prepares a certificate for it once; the receiver checks
both. If they are accepted, playing the file on any surface within the
certificate's bound misuses no object, overflows nowhere, and writes at most the
certified number of pixels.

Usage: metaplay <COMMAND>

Commands:
  show     Plays a metafile on white and writes the image to standard output
  prepare  Makes a certificate for a metafile, for surfaces of at most W by H
  check    Checks a metafile and its certificate and writes a report in JSON
  play     Plays a metafile by its certificate on white and writes the image
  over     Plays a metafile by its certificate over an image; writes the result
  list     Writes one line for each record of a metafile
  info     Writes one line of JSON about each metafile
  certify  Writes a certificate for each metafile into a folder
  help     Print this message or the help of the given subcommand(s)

Options:
  -h, --help  Print help

Examples:
  metaplay show drawing.wmf 400 300 --fit > drawing.ppm
  metaplay prepare drawing.wmf 4096 4096 drawing.cert --profile print
  metaplay check drawing.wmf drawing.cert
  metaplay play drawing.wmf drawing.cert 400 300 > drawing.ppm
  metaplay over drawing.wmf drawing.cert page.ppm > printed.ppm
  metaplay list drawing.wmf
  metaplay info drawing.wmf other.emf
  metaplay certify --out-dir certs 4096 4096 drawing.wmf other.emf
  metaplay --version

FILE may be the word stdin, for standard input, but not for certify. Images are
P6 (ppm(5)). What check, info and certify write about a file is one line of JSON.
--version, or -V, prints the version and a checksum of the sources.

Exit status:
  0  done
  1  the file, the certificate or the image was rejected, or the surface is
     larger than the bound; or the records that list printed don't end properly;
     or a file of info doesn't play, or one of certify is rejected
  2  wrong usage, or help
  3  an input or an output failed, or an input is longer than 268,435,456 bytes
  4  out of memory

The fault is on standard error; check, list, info and certify print it on
standard output. FAULTS.md explains each fault and what to do about it.
"""

# The help of each command, by its name.
HELP = {
    "show": """\
Plays a metafile on white and writes the image to standard output

Usage: metaplay show [OPTIONS] <FILE> <W> <H>

Arguments:
  <FILE>  The metafile, or the word stdin for standard input
  <W>     The width of the surface in pixels
  <H>     The height of the surface in pixels

Options:
      --fit                Keep the picture's proportion; W and H are then the most
      --profile <PROFILE>  The rules: core (the default), or print for large surfaces
      --allow <NAME>       With print: also accept held-deletion or emf-plus
  -h, --help               Print help
""",
    "prepare": """\
Makes a certificate for a metafile, for surfaces of at most W by H

Usage: metaplay prepare [OPTIONS] <FILE> <W> <H> <OUT>

Arguments:
  <FILE>  The metafile, or the word stdin for standard input
  <W>     The width of the surface in pixels
  <H>     The height of the surface in pixels
  <OUT>   The file to write the certificate to

Options:
      --profile <PROFILE>  The rules: core (the default), or print for large surfaces
      --allow <NAME>       With print: also accept held-deletion or emf-plus
  -h, --help               Print help
""",
    "check": """\
Checks a metafile and its certificate and writes a report in JSON

Usage: metaplay check <FILE> <CERT>

Arguments:
  <FILE>  The metafile, or the word stdin for standard input
  <CERT>  The certificate

Options:
  -h, --help  Print help
""",
    "play": """\
Plays a metafile by its certificate on white and writes the image

Usage: metaplay play [OPTIONS] <FILE> <CERT> <W> <H>

Arguments:
  <FILE>  The metafile, or the word stdin for standard input
  <CERT>  The certificate
  <W>     The width of the surface in pixels
  <H>     The height of the surface in pixels

Options:
      --bands <ROWS>  How many rows to play at a time; the image is the same
      --fit           Keep the picture's proportion; W and H are then the most
  -h, --help          Print help
""",
    "over": """\
Plays a metafile by its certificate over an image; writes the result

Usage: metaplay over <FILE> <CERT> <IMAGE>

Arguments:
  <FILE>   The metafile, or the word stdin for standard input
  <CERT>   The certificate
  <IMAGE>  A P6 image (ppm(5)); the surface has its size

Options:
  -h, --help  Print help
""",
    "list": """\
Writes one line for each record of a metafile

Usage: metaplay list [OPTIONS] <FILE>

Arguments:
  <FILE>  The metafile, or the word stdin for standard input

Options:
      --profile <PROFILE>  The rules: core (the default), or print for large surfaces
      --allow <NAME>       With print: also accept held-deletion or emf-plus
  -h, --help               Print help
""",
    "info": """\
Writes one line of JSON about each metafile

Usage: metaplay info [OPTIONS] <FILE>...

Arguments:
  <FILE>...  The metafiles; one may be the word stdin

Options:
      --profile <PROFILE>  The rules: core (the default), or print for large surfaces
      --allow <NAME>       With print: also accept held-deletion or emf-plus
  -h, --help               Print help
""",
    "certify": """\
Writes a certificate for each metafile into a folder

Usage: metaplay certify [OPTIONS] --out-dir <DIR> <W> <H> <FILE>...

Arguments:
  <W>        The width of the surface in pixels
  <H>        The height of the surface in pixels
  <FILE>...  The metafiles

Options:
      --out-dir <DIR>      The folder of the certificates
      --replace            Replace a plain file that has a certificate's name
      --profile <PROFILE>  The rules: core (the default), or print for large surfaces
      --allow <NAME>       With print: also accept held-deletion or emf-plus
  -h, --help               Print help
""",
}


class HelpTexts(unittest.TestCase):
    """What is asked for goes to standard output, and standard error gets nothing."""

    def assert_helps(self, program, words, text):
        """Compares what a program answers these words with the help."""
        self.assertEqual(answer(program, words), Answer(2, text.encode(), b""), words)

    @for_each_program
    def test_the_program_s_help(self, program):
        for words in (["--help"], ["-h"], ["help"]):
            self.assert_helps(program, words, PROGRAM_HELP)

    @for_each_program
    def test_the_help_of_each_command(self, program):
        for name, text in HELP.items():
            for words in ([name, "--help"], [name, "-h"], ["help", name], [name, "1", "--help", "2", "c", "d", "e"]):
                self.assert_helps(program, words, text)


if __name__ == "__main__":
    unittest.main()
