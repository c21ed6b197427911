"""python3 -m pirkvezo, as ./pirkvezo calls it."""
import sys

from .cli import main

sys.exit(main())
