# PYTHON_ARGCOMPLETE_OK
"""python -m misteluk load | restore | follow | serve | view | doctor"""
import sys

from .command.main import main

if __name__ == "__main__":
    sys.exit(main())
