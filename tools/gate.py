"""Runs rt ci, then the samples of seldump and selmake and the tests of tools/capture, and last prints rt's last line. Exits as rt did, or with 1 where one of the others fails, or where an edit of crates/*/must-fail is bad or was not tried, which rt ci itself lets pass."""
import re
import subprocess
import sys
from pathlib import Path

AFTER = ((['tools/samples.py'], 'seldump or selmake prints something else than it must'), (['tools/test-capture', '--scripted'], 'a test of tools/capture fails'))


def edit_fault(lines, files):
    """What is wrong with the must-fail edits, of which there are so many files, by what rt ci printed where it passed."""
    said = [line for line in lines if line.startswith('rt: ok; ')]
    if len(said) != 1:
        return f'rt ci prints {len(said)} lines `rt: ok`'
    counts = re.search(r'; must-fail edits: (\d+) refused[^;]*', said[0])
    refused, bad = (int(counts.group(1)), re.search(r', (\d+) bad\b', counts.group(0))) if counts else (0, None)
    if bad and int(bad.group(1)):
        return f'{bad.group(1)} must-fail edits are bad'
    return None if refused == files else f'{refused} must-fail edits are refused, of {files} in crates/*/must-fail'


def main():
    run = subprocess.Popen(['rt', 'ci'], stdout=subprocess.PIPE, text=True)
    lines = ['']
    for line in run.stdout:
        print(lines[-1], end='', flush=True)
        lines.append(line)
    status = run.wait()
    faults = [fault] if status == 0 and (fault := edit_fault(lines, sum(1 for _ in Path('crates').glob('*/must-fail/*.edit')))) else []
    for command, fault in AFTER if status == 0 and not faults else ():
        if subprocess.run([sys.executable, *command]).returncode != 0:
            faults.append(fault)
            break
    if faults:
        sys.exit(f'check: {faults[0]}')
    print(lines[-1], end='', flush=True)
    return status


if __name__ == '__main__':
    sys.exit(main())
