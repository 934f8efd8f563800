"""Programs that do one piece of work, run in turn: their times, their memory, the instructions that they take, and whether they print the same."""
import os
import re
import shutil
import subprocess
import sys


def build(*command, **more):
    done = subprocess.run(command, capture_output=True, text=True, **more)
    if done.returncode:
        sys.exit(f'{command[0]}: {done.stderr}')


def python_with(module):
    """A Python that has the module, or None."""
    for python in (sys.executable, '/usr/bin/python3'):
        if os.access(python, os.X_OK) and not subprocess.run([python, '-c', f'import {module}'], capture_output=True).returncode:
            return python
    return None


def run(command, folder, output, due=0):
    """The processor time in seconds, and the most memory in bytes. The run must end with the status that is due."""
    with open(output, 'wb') as out:
        child = subprocess.Popen(command, cwd=folder, stdout=out)
        _, status, usage = os.wait4(child.pid, 0)
        child.returncode = os.waitstatus_to_exitcode(status)
    if child.returncode != due:
        raise subprocess.CalledProcessError(child.returncode, command)
    return usage.ru_utime + usage.ru_stime, usage.ru_maxrss * 1024


def instructions(command, folder):
    """How many instructions a run takes, or None without valgrind."""
    if not shutil.which('valgrind'):
        return None
    told = subprocess.run(['valgrind', '--tool=callgrind', '--callgrind-out-file=/dev/null', *command], cwd=folder, text=True,
                          stdout=subprocess.DEVNULL, stderr=subprocess.PIPE).stderr
    return int(re.search(r'Collected : (\d+)', told)[1])


def ratio(ours, theirs):
    return f'{ours / theirs:.2f}' if ours and theirs else '-'


class Runner:
    """A program on a piece of work: its command, its times and what it takes; and the run of it that is taken off, or None."""

    def __init__(self, name, command, counted, base=None):
        self.name, self.command, self.counted, self.base = name, command, counted, base
        self.times, self.memory, self.each = [], 0, None

    def time(self):
        return min(self.times) - (self.base.time() if self.base else 0)

    def count(self, folder):
        if self.counted:
            each = instructions(self.command, folder)
            self.each = each and each - (self.base.each if self.base else 0)

    def round(self, folder, due=0, output='/dev/null'):
        time, memory = run(self.command, folder, output, due)
        self.times.append(time)
        self.memory = max(self.memory, memory)


def same_output(runners, folder):
    """Whether all programs print the same; tells which one does not."""
    due = None
    for runner in reversed(runners):
        try:
            run(runner.command, folder, folder / 'printed')
        except subprocess.CalledProcessError as ended:
            print(f'{runner.name} ended with {ended.returncode}: {(folder / "printed").read_bytes()[-80:]!r}', file=sys.stderr)
            return False
        printed = (folder / 'printed').read_bytes()
        if due is not None and printed != due:
            print(f'{runner.name} prints otherwise', file=sys.stderr)
            return False
        due = printed
    return True


def print_line(work, runners, peers):
    """A line of the table: the first runner against two others, which are told by their names."""
    ours, named = runners[0], {runner.name: runner for runner in runners}

    def cells(name):
        peer = named.get(name)
        return f'{ratio(ours.time(), peer.time())} | {ratio(ours.each, peer.each)}' if peer else '- | -'
    print(f'| a script: {work} | {ours.time():.3f} s | {" | ".join(map(cells, peers))} |', flush=True)


def tell(work, runners, count, unit):
    """What there is to say of each runner, on standard error: also its instructions a unit, of which the counted runs had so many."""
    ours = runners[0]
    for runner in runners:
        each = f'{runner.each / count:.1f} instructions a {unit}, ' if runner.each else ''
        print(f'{work}, {runner.name}: {runner.time():.3f} s, {each}{runner.memory / 1e6:.1f} MB; llama to it {ratio(ours.time(), runner.time())} '
              f'in time, {ratio(ours.each, runner.each)} in instructions', file=sys.stderr)
