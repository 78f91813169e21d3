"""A crate that is proved with one job, over the libraries that `tools/build` has made, and how long each part of that takes.

The prover keeps each module of a proof as soon as it is done with it. So when these files were written, beside how much of a
processor the prover had used by then, tells how long each took; other work on the machine doesn't count, but makes all
slower, by up to a half with as many provers as there are processors.
"""
import bisect
import importlib.machinery
import importlib.util
import os
import re
import shutil
import subprocess
import threading
import time

TOP = os.path.dirname(os.path.dirname(os.path.realpath(__file__)))
# How often it is asked what the prover has used, in seconds.
PAUSE = 0.03


def load_build():
    """The module that `tools/build` is."""
    loader = importlib.machinery.SourceFileLoader("build", os.path.join(TOP, "tools", "build"))
    made = importlib.util.module_from_spec(importlib.util.spec_from_loader("build", loader))
    loader.exec_module(made)
    return made


class Used:
    """How many seconds of a processor a process had used, at any moment while it ran."""

    def __init__(self, process):
        self.moments, self.seconds = [time.time_ns()], [0.0]
        self.is_over = threading.Event()
        self.watching = threading.Thread(target=self.watch, args=(process.pid,))
        self.watching.start()

    def watch(self, number):
        per_second = os.sysconf("SC_CLK_TCK")
        while not self.is_over.wait(PAUSE):
            try:
                with open("/proc/%d/stat" % number) as reader:
                    words = reader.read().rsplit(")", 1)[1].split()
            except OSError:
                return
            self.moments.append(time.time_ns())
            self.seconds.append((int(words[11]) + int(words[12])) / per_second)

    def end(self):
        self.is_over.set()
        self.watching.join()

    def at(self, moment):
        place = bisect.bisect_left(self.moments, moment)
        if place in (0, len(self.moments)):
            return self.seconds[min(place, len(self.moments) - 1)]
        (from_moment, to_moment), (begun, ended) = self.moments[place - 1:place + 1], self.seconds[place - 1:place + 1]
        return begun + (ended - begun) * (moment - from_moment) / max(1, to_moment - from_moment)


class Proving:
    """The proofs of a crate, of which a folder keeps what was proved."""

    def __init__(self, name):
        build = load_build()
        self.name = name
        self.crate = build.repository()[name]
        self.folder = self.crate.folder
        self.kept = os.path.join(build.MADE, "profiled", name)
        kit = os.path.dirname(subprocess.run(["rt", "doc"], stdout=subprocess.PIPE, check=True).stdout.decode().strip())
        words = self.crate.words(kit, 1)
        # to check, not to build
        words = [words[0], "check", *words[2:]]
        for flag, count in (("-o", 2), ("--statements", 1), ("--toolchain", 2), ("--backend", 2)):
            if flag in words:
                at = words.index(flag)
                del words[at:at + count]
        self.words = words

    def forget(self):
        shutil.rmtree(self.kept, ignore_errors=True)

    def records(self):
        for at, _, files in os.walk(self.kept):
            for file in files:
                yield os.path.join(at, file)

    def check(self, *flags):
        """Proves what isn't kept. Whether all is proved, what was said, how many seconds of a processor that took, and how
        many each file that was written, by its name."""
        os.makedirs(self.kept, exist_ok=True)
        begun = time.time_ns()
        words = [*self.words, "--incremental", self.kept, *flags]
        run = subprocess.Popen(words, cwd=self.folder, stdin=subprocess.DEVNULL, stdout=subprocess.PIPE, stderr=subprocess.STDOUT)
        used = Used(run)
        said = run.stdout.read().decode(errors="replace")
        used.end()
        _, status, rest = os.wait4(run.pid, 0)
        run.returncode = os.waitstatus_to_exitcode(status)
        took, before = [], 0.0
        written = sorted((os.stat(it).st_mtime_ns, it) for it in self.records())
        for moment, record in written:
            if moment > begun:
                took.append((os.path.basename(record), used.at(moment) - before))
                before = used.at(moment)
        return run.returncode == 0, said, rest.ru_utime + rest.ru_stime, took

    def profile(self):
        """Proves all from nothing. The seconds of a processor that it took in all, and what each function took, by the
        parts of its proof: `Lts` is the walk through its code, `Goals` what has to be shown, `Answers` what is answered
        of it, `Proof` what the prover finds itself."""
        self.forget()
        is_proved, said, seconds, took = self.check()
        if not is_proved:
            raise SystemExit("%s\n%s isn't proved" % (said, self.name))
        named = re.compile(r"Rattle-%s-proofs\.(.+?)(?:\.decls)?\.oantt$" % self.name)
        modules = [(found.group(1).split("."), spent) for found, spent in ((named.match(file), spent) for file, spent in took) if found]
        functions = {".".join(words[:-1]) for words, _ in modules if words[-1] == "Met"}
        parts = {}
        for words, spent in modules:
            for count in range(len(words), 0, -1):
                function, part = ".".join(words[:count]), ".".join(words[count:])
                if function in functions:
                    of_it = parts.setdefault(function, {})
                    of_it[part] = of_it.get(part, 0) + spent
                    break
        return seconds, parts
