"""The plain program of tests/plain/, compiled on Debian's librust-arrayvec-dev, librust-hex-dev and librust-memchr-dev."""
import glob
import os
import shutil
import subprocess

SOURCE = os.path.join(os.path.dirname(os.path.abspath(__file__)), '..', 'plain')
REGISTRY = '/usr/share/cargo/registry'
CONFIGURED = ('source.crates-io.replace-with="debian"', f'source.debian.directory="{REGISTRY}"')
WANTED = 'the plain program wants cargo of 1.82 and crates in ' + REGISTRY


def compiled(folder):
    """The plain program, compiled in a folder of its own, or None without cargo, the crates or a Rust of 1.82."""
    if not shutil.which('cargo') or not all(glob.glob(f'{REGISTRY}/{crate}-*') for crate in ('arrayvec', 'hex', 'memchr')):
        return None
    source = shutil.copytree(SOURCE, os.path.join(folder, 'plain'))
    words = [word for each in CONFIGURED for word in ('--config', each)]
    done = subprocess.run(['cargo', 'build', '--quiet', '--release', '--offline', *words], cwd=source)
    return os.path.join(source, 'target', 'release', 'plain') if done.returncode == 0 else None
