"""What scripts that make packages and the page have alike: files of the repository, and programs that are run."""
import os
import pathlib
import subprocess
import sys

TOP = str(pathlib.Path(__file__).resolve().parents[2])


def fail(text):
    print(f'tools/{os.path.basename(sys.argv[0])}: {text}', file=sys.stderr)
    sys.exit(1)


def bytes_of(path):
    try:
        with open(path, 'rb') as file:
            return file.read()
    except OSError as error:
        return fail(f'{path}: {error.strerror}')


def text_of(*path):
    return bytes_of(os.path.join(TOP, *path)).decode()


def run(*words):
    """What a program prints."""
    try:
        return subprocess.run(words, check=True, stdout=subprocess.PIPE, text=True).stdout
    except FileNotFoundError:
        return fail(f'{words[0]} is missing: install the package that has it')
    except subprocess.CalledProcessError as error:
        return fail(f'{words[0]} ended with status {error.returncode}')
