"""A command line whose refusals show words harmlessly."""
import argparse

from .process import harmless


class Parser(argparse.ArgumentParser):
    def error(self, message):
        super().error(harmless(message))
