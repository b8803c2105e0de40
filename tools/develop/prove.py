#!/usr/bin/env python3
"""Proves packages and those below them one after another, each with the processors that no other takes, and keeps what was built.

usage: prove.py LIBS PACKAGE..      LIBS: a folder for what is built, as NAME/NAME.rlib; what is there is taken as it is

`rt ci` gives a proof more than one job only where it reckons memory for it, so near the top it proves one package at a time with one job. Here the
package that most others wait for gets all processors (LANES, or those of the machine), and three at most stand beside it, with what processors are
idle while it loads what is below it. A line says how long each took; its output is LIBS/NAME.log, and a program is linked as LIBS/NAME/NAME. It is no
verdict: only the gate's is. A package that changed is proved again only once its folder in LIBS is removed, and so are those above it. Started anew,
it takes over what a run that was stopped left running.
"""
import contextlib, os, shutil, subprocess, sys, time

ROOT = os.path.dirname(os.path.dirname(os.path.dirname(os.path.abspath(__file__))))
KIT = os.path.dirname(os.path.dirname(os.path.realpath(shutil.which('rt') or 'rt')))
TARGET = 'x86_64-unknown-linux-gnu'
LANES = int(os.environ.get('LANES') or len(os.sched_getaffinity(0)))
# What a package costs before its first function, in lines, and the memory without which none is begun beside another, in kB.
FIXED = 1500
FREE = 8_000_000
# How much of the processors packages get that stand side by side, by the `nice` of their sessions: what most others wait for, and what comes next.
SHARES = -10, -5, 5, 19


class Packages:
    def __init__(self, libs, targets):
        self.libs, self.listed = libs, {}
        with open(f'{ROOT}/crates.txt', encoding='utf-8') as found:
            for line in found:
                name, colon, rest = line.split('#')[0].partition(':')
                if colon:
                    self.listed[name.strip()] = rest.split()
        self.wanted = []
        for it in targets:
            self.visit(it, self.wanted)
        self.behind = {it: self.lines(it) for it in self.wanted}
        for name in reversed(self.wanted):
            for it in self.own(name):
                self.behind[it] = max(self.behind[it], self.lines(it) + self.behind[name])

    def own(self, name): return [it for it in self.listed[name] if it in self.listed]

    def visit(self, name, found):
        """Adds a package behind those below it."""
        for it in self.own(name):
            self.visit(it, found)
        if name not in found:
            found.append(name)

    def lines(self, name):
        files = [os.path.join(folder, it) for folder, _, its in os.walk(f'{ROOT}/crates/{name}/src') for it in its]
        return FIXED + sum(open(it, 'rb').read().count(b'\n') for it in files)

    def is_program(self, name): return os.path.isfile(f'{ROOT}/crates/{name}/src/main.rt')

    def lib(self, name): return f'{self.libs}/{name}/{name}' + ('' if self.is_program(name) else '.rlib')

    def is_built(self, name): return os.path.isfile(self.lib(name) if self.is_program(name) else f'{self.lib(name)}/format')

    def begun(self, name): return f'{self.libs}/{name}.begun'

    def command(self, name, jobs):
        below = []
        self.visit(name, below)
        kit = ['std', *(it for it in self.listed[name] if it not in self.listed)]
        program = self.is_program(name)
        words = [f'{KIT}/bin/rattle', 'build', '--crate-name', name, f'src/{"main" if program else "lib"}.rt']
        for it in dict.fromkeys(kit):
            words += ['--extern', f'{it}={KIT}/rlibs/{it}.rlib']
        words += ['-L', f'dependency={KIT}/rlibs']
        for it in self.own(name):
            words += ['--extern', f'{it}={self.lib(it)}']
        for it in below[:-1]:
            words += ['-L', f'dependency={self.libs}/{it}']
        words += ['--antt-project', f'{KIT}/rattle/logic/antt-project.json', '--logic-built', f'{KIT}/logic_built', '--links', f'{name}=']
        words += ['--toolchain', f'{KIT}/toolchain', '--backend', 'llvm'] if program else ['--statements', '--empty-contracts']
        return [*words, '--jobs', str(jobs), '-o', self.begun(name)]

    def keep(self, name):
        """Puts what was built where it is looked for; whether there was something."""
        if not os.path.exists(self.begun(name)):
            return False
        os.makedirs(f'{self.libs}/{name}', exist_ok=True)
        if not self.is_program(name):
            os.rename(self.begun(name), self.lib(name))
            return True
        c = [f'{KIT}/c/libos_c.a', f'{KIT}/c/liblibc_c.a']
        words = [f'{KIT}/bin/rattle-link', '--target', TARGET, '--toolchain', f'{KIT}/toolchain', '-o', self.lib(name)]
        os.rename(self.begun(name), f'{self.lib(name)}.o')
        return subprocess.call([*words, f'{self.lib(name)}.o', *c], stdout=subprocess.DEVNULL) == 0


def say(text): print(time.strftime('%H:%M:%S'), text, flush=True)


def written(path, text):
    """Writes to a file, where the machine lets us."""
    try:
        with open(path, 'w', encoding='utf-8') as it:
            it.write(text)
    except OSError:
        pass


def free():
    with open('/proc/meminfo', encoding='utf-8') as found:
        return next(int(line.split()[1]) for line in found if line.startswith('MemAvailable'))


def is_alive(pid):
    try:
        with open(f'/proc/{pid}/stat', encoding='utf-8') as found:
            return found.read().rpartition(')')[2].split()[0] != 'Z'
    except OSError:
        return False


def begin(packages, name, jobs):
    if os.path.isdir(packages.begun(name)):
        shutil.rmtree(packages.begun(name))
    with open(f'{packages.libs}/{name}.log', 'w', encoding='utf-8') as log:
        command, folder = packages.command(name, jobs), f'{ROOT}/crates/{name}'
        process = subprocess.Popen(command, cwd=folder, stdout=log, stderr=subprocess.STDOUT, start_new_session=True)
    written(f'{packages.libs}/{name}.pid', str(process.pid))
    say(f'begins {name}, {jobs} jobs')
    return process.pid, time.time()


def left_running(packages):
    """What a run that was stopped left running. What ended meanwhile may be half a library, and is begun anew."""
    found = {}
    for name in packages.wanted:
        if os.path.isfile(f'{packages.libs}/{name}.pid'):
            with open(f'{packages.libs}/{name}.pid', encoding='utf-8') as it:
                pid = int(it.read())
            if is_alive(pid):
                found[name] = pid, time.time()
    return found


def main(libs, targets):
    os.makedirs(libs, exist_ok=True)
    packages = Packages(os.path.abspath(libs), targets)
    running, failed, order = left_running(packages), [], []
    left = sorted((it for it in packages.wanted if it not in running and not packages.is_built(it)), key=lambda it: -packages.behind[it])
    while left or running:
        for name in [it for it in running if not is_alive(running[it][0])]:
            start = running.pop(name)[1]
            with contextlib.suppress(OSError):
                os.remove(f'{packages.libs}/{name}.pid')
            failed += [] if packages.keep(name) else [name]
            say(f'{"FAILED" if name in failed else "proved"} {name} after {time.time() - start:.0f} s')
        ready = [it for it in left if all(packages.is_built(below) for below in packages.own(it))]
        first = ready and all(packages.behind[ready[0]] > packages.behind[it] for it in running)
        if ready and len(running) < len(SHARES) and (first or free() > FREE):
            left.remove(ready[0])
            running[ready[0]] = begin(packages, ready[0], LANES if first else max(1, LANES // 2))
        elif not running:
            break
        if sorted(running) != sorted(order):
            order = sorted(running, key=lambda it: -packages.behind[it])
            for name, share in zip(order, SHARES):
                written(f'/proc/{running[name][0]}/autogroup', str(share))
                written(f'/proc/{running[name][0]}/oom_score_adj', '0' if name == order[0] else '800')
        time.sleep(1)
    say(f'failed: {" ".join(failed) or "none"}; not reached: {len(left)}')
    return bool(failed or left)


if __name__ == '__main__':
    sys.exit(main(sys.argv[1], sys.argv[2:]) if len(sys.argv) > 2 else __doc__)
