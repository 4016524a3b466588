"""The measurements of this repository: `python3 -m bench list` has them all, README.md says what each takes."""
