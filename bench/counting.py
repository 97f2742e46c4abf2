"""Runs of the program: each over a journal of its own, and the instructions of one, by valgrind."""
import re
import subprocess


def fresh(work):
    """The path of an empty journal in the folder `work`."""
    with open(work + '/journal', 'wb') as file:
        file.write(b'WIFJ0001\0')
    return work + '/journal'


def instructions(work, config, script):
    """Those of a run over the script; `work` is the folder that has the program."""
    with open(work + '/input', 'wb') as f:
        f.write(script)
    with open(work + '/input', 'rb') as source:
        run = subprocess.run(['valgrind', '--tool=callgrind', '--callgrind-out-file=/dev/null', work + '/sts', 'script', config, fresh(work)],
                             stdin=source, capture_output=True)
    return int(re.search(rb'refs:\s+([0-9,]+)', run.stderr).group(1).replace(b',', b''))
