"""The same work on one machine, by the commands of docs/RECIPES.md: what a fleet is measured beside."""
import subprocess
import time

from fleet_ground import Ground, is_fold
from fleet_hosts import need

PROFILES = "xargs -0 parallel --will-cite -n 64 '{program} fold {{}}' ::: < names"
TEXT = "parallel --will-cite --pipe-part -a big.folded --block 500M '{program} fold'"


def try_alone(ground: Ground) -> str:
    need({'parallel': 'parallel'})
    inputs = [each for each in ground.good if each.name != 'odd.folded']
    names = [each.name for each in inputs if each.name != 'big.folded']
    (ground.folder / 'names').write_text(''.join(f'{name}\0' for name in names))
    times = []
    for command in (PROFILES, TEXT, f'{{{{ {PROFILES}; {TEXT}; }}}} | {{program}} fold'):
        begin = time.monotonic()
        found = subprocess.run(['bash', '-o', 'pipefail', '-c', command.format(program=ground.program)], cwd=ground.folder,
                               stdin=subprocess.DEVNULL, stdout=subprocess.PIPE, stderr=subprocess.DEVNULL, check=True).stdout
        times.append(f'{time.monotonic() - begin:.1f} s')
    is_fold(found, inputs, 'on one machine')
    return f'GNU parallel on one machine: profiles {times[0]}, a text {times[1]}, all {times[2]}'
