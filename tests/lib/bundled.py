"""Scripts of page/tests, bundled by esbuild with what they import of the page, as node runs them."""
import os
import subprocess

PLACE = os.path.realpath(f'{os.path.dirname(os.path.abspath(__file__))}/../../page/tests')


def bundled(folder, *names):
    """Writes these scripts to a folder; answers the path of each."""
    subprocess.run(['esbuild', *(f'{PLACE}/{each}' for each in names), '--bundle', '--platform=node', '--format=esm', '--log-level=warning',
                    '--out-extension:.js=.mjs', f'--outdir={folder}', f'--outbase={PLACE}'], check=True)
    return [f'{folder}/{each}' for each in names]
