"""python3 -m hejslopi"""
from .command import entry

entry()
