"""The program's version, which is that of the newest entry of CHANGELOG.md."""

VERSION = "1.1.0"
