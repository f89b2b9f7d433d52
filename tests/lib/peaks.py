"""The most memory of a run. The system tells it while the program stands: what it keeps of a program that ended counts
what the script that started it had taken itself."""
import array
import fcntl
import pathlib
import re
import subprocess
import termios
import threading
import time

from lib.checks import fail


def waits(child):
    """Whether a run has read all that was written to it, and sleeps; or has ended."""
    unread = array.array('i', [0])
    fcntl.ioctl(child.stdin, termios.FIONREAD, unread)
    state = pathlib.Path(f'/proc/{child.pid}/stat').read_text().rpartition(')')[2].split()[0]
    return state == 'Z' or unread[0] == 0 and state == 'S'


def peak(command, pieces, kind='VmHWM', seconds=None, **how):
    """The most memory (VmHWM) or addresses (VmPeak) of a run of this command on an input of these pieces, in bytes. A
    run that goes on for more than these seconds is ended."""
    child = subprocess.Popen(command, stdin=subprocess.PIPE, **{'stdout': subprocess.DEVNULL} | how)
    limit = threading.Timer(seconds, child.kill) if seconds else None
    if limit:
        limit.daemon = True
        limit.start()
    told = None
    try:
        for piece in pieces:
            child.stdin.write(piece)
        child.stdin.flush()
        while not waits(child):
            time.sleep(0.01)
        status = pathlib.Path(f'/proc/{child.pid}/status').read_text()
        told = re.search(rf'^{kind}:\s+(\d+) kB$', status, re.M)
        child.stdin.close()
    except BrokenPipeError:
        pass  # the program ended
    if limit:
        limit.cancel()
    if child.wait() != 0 or not told:
        fail(f'{" ".join(map(str, command))}: status {child.returncode}')
    return int(told[1]) * 1024
