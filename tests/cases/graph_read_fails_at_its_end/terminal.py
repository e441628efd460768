"""Gives some bytes on standard input and then a read that fails: a terminal whose other end is closed."""

import os
import subprocess
import sys

master, slave = os.openpty()
os.write(slave, sys.argv[1].encode())
os.close(slave)
sys.exit(subprocess.run(sys.argv[2:], stdin=master).returncode)
