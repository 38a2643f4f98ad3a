"""python3 -m vonjekona"""
import sys

from .command import main

sys.exit(main(sys.argv[1:]))
