"""The version of the package; CHANGELOG.md says what each has."""

VERSION = "1.0.0"
