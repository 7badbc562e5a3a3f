"""The largest stack frames in built files: frames.py FILE.. prints bytes and function, read off the machine code. Needs objdump (Debian: apt-get install binutils)."""
import re
import shutil
import subprocess
import sys

MOST = 5  # of each file

if len(sys.argv) < 2:
    sys.exit('frames: name the built files, such as target/bin/seldump target/staticlib/libabi.a')
if not shutil.which('objdump'):
    sys.exit('frames: no objdump found; install it (Debian: apt-get install binutils)')
for file in sys.argv[1:]:
    run = subprocess.run(['objdump', '-d', '-C', '--no-show-raw-insn', file], capture_output=True, text=True)
    if run.returncode:
        sys.exit(f'frames: {run.stderr.strip()}')
    frames, name, probed = {}, '', False
    for line in run.stdout.splitlines():
        start = re.match(r'[0-9a-f]+ <(.+)>:', line)
        took = re.search(r'\tsub +\$0x([0-9a-f]+),%(rsp|r11)', line)
        if start:
            name, probed = start.group(1), False
        elif re.search(r'\tpush ', line):
            frames[name] = frames.get(name, 0) + 8
        elif took and took.group(2) == 'r11':  # a large frame: its pages are touched one by one, down to r11
            frames[name], probed = frames.get(name, 0) + int(took.group(1), 16), True
        elif took and not (probed and took.group(1) == '1000'):
            frames[name] = frames.get(name, 0) + int(took.group(1), 16)
    print(file)
    for name, size in sorted(frames.items(), key=lambda f: -f[1])[:MOST]:
        print(f'  {size:>7} {name}')
