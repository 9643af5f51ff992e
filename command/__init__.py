"""hitch: the one command over this repository's programs. main.py has the commands; ends.py says how each ends."""
