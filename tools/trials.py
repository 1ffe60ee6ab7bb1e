"""The trials of ./test: commands that run side by side, and what each says of its tests."""
import os
import pathlib
import re
import signal
import subprocess
import time

# What a trial takes of the memory: `rt try` compiles all that is below a crate.
GIGABYTES_EACH = 2
# How much of what a failed trial said is printed.
LINES, COLUMNS = 40, 300
# The signals that end ./test.
ENDING = {signal.SIGINT, signal.SIGTERM, signal.SIGHUP}


def let_end():
    signal.pthread_sigmask(signal.SIG_UNBLOCK, ENDING)


class Trial:
    """A command that tries so many tests. `what` is what they are."""

    what = "scripts"

    def __init__(self, name, words, folder, wanted=1, given=None):
        self.name, self.words, self.folder = name, words, folder
        self.wanted, self.given = wanted, given
        self.passed = self.failed = 0
        self.process = None

    def start(self, work, number):
        self.out, self.err = work / f"{number}.out", work / f"{number}.err"
        given = self.given if self.given and self.given.is_file() else os.devnull
        with open(given, "rb") as it, open(self.out, "wb") as out, open(self.err, "wb") as err:
            # A signal waits until the process is known here, so that it is ended too.
            signal.pthread_sigmask(signal.SIG_BLOCK, ENDING)
            # In a session of its own, so that all that it starts ends with it.
            self.process = subprocess.Popen(
                self.words, cwd=self.folder, stdin=it, stdout=out, stderr=err,
                start_new_session=True, preexec_fn=let_end,
            )
        let_end()

    def stop(self):
        if self.process is None or self.process.poll() is not None:
            return
        os.killpg(self.process.pid, signal.SIGTERM)
        try:
            self.process.wait(10)
        except subprocess.TimeoutExpired:
            os.killpg(self.process.pid, signal.SIGKILL)
            self.process.wait()

    def end(self):
        """Counts what passed and what failed, and returns lines on what failed."""
        how = {"encoding": "utf-8", "errors": "replace"}
        out, err = self.out.read_text(**how), self.err.read_text(**how)
        passed, wrong = self.read(self.process.returncode, out, err)
        self.passed = min(passed, self.wanted)
        self.failed = self.wanted - self.passed
        if self.failed and not wrong:
            wrong = (out + err).splitlines()[-LINES:]
        return [it[:COLUMNS] for it in wrong[:LINES]] if self.failed else []

    def read(self, status, out, err):
        """How many tests passed, and lines on those that failed; with none, all is printed."""
        return int(status == 0), []


class RowTrial(Trial):
    what = "rows"

    def read(self, status, out, err):
        wrong = [it for it in out.splitlines() if it.startswith("fail ")]
        last = re.search(r"(?:\A|\n)rows (\d+) failed (\d+)\n\Z", out)
        if not last:
            return 0, []
        ran, failed = int(last[1]), int(last[2])
        if ran != self.wanted:
            return 0, [f"{ran} rows were run, and not {self.wanted}"]
        if status and not failed:
            return 0, [f"no row differs, and the status is {status}"]
        return ran - failed, wrong


class FunctionTrial(Trial):
    what = "test functions"

    def read(self, status, out, err):
        said = (out + err).splitlines()
        passed = sum(bool(re.match(r"test \S+ \.\.\. ok$", it)) for it in said)
        failed = [at for at, it in enumerate(said) if re.match(r"test \S+ \.\.\. (?!ok$)", it)]
        wrong = [line for at in failed for line in said[at : at + 4]]
        if passed >= self.wanted and status:
            return 0, [f"no function failed, and the status is {status}"]
        return passed, wrong


class StoredRun(Trial):
    """A run of a program, whose output and status are stored beside its sources."""

    what = "stored runs"

    def read(self, status, out, err):
        stored = self.folder / "status"
        wanted = int(stored.read_text(encoding="utf-8")) if stored.is_file() else 0
        if status != wanted:
            return 0, []
        if out != (self.folder / "stdout").read_text(encoding="utf-8"):
            return 0, ["another output than that of the file stdout:", *out.splitlines()]
        return 1, []


class CompiledLibraries(Trial):
    what = "libraries compiled"

    def read(self, status, out, err):
        wrong = [it for it in err.splitlines() if "error" in it]
        return self.wanted if status == 0 and out == "compiled\n" else 0, wrong


class RejectedSources(Trial):
    what = "sources that must not compile"

    def read(self, status, out, err):
        said = (out + err).splitlines()
        wrong = [it for it in said if not it.startswith("does not compile, as it must not: ")]
        passed = len(said) - len(wrong)
        return 0 if status and passed >= self.wanted else passed, wrong


def lanes():
    """How many trials run at once, by the processors and the memory that is free."""
    meminfo = pathlib.Path("/proc/meminfo").read_text(encoding="ascii")
    free = int(re.search(r"MemAvailable:\s+(\d+) kB", meminfo)[1]) / 1e6
    return max(1, min(len(os.sched_getaffinity(0)), int(free / GIGABYTES_EACH)))


def run_all(trials, work, progress):
    """Runs all trials, and prints what failed as soon as each has ended."""
    waiting, running, most, ended = [*enumerate(trials)], [], lanes(), 0
    try:
        while waiting or running:
            while waiting and len(running) < most:
                number, trial = waiting.pop(0)
                running.append(trial)
                trial.start(work, number)
            names = ", ".join(it.name for it in running)
            progress.at(f"{ended} of {len(trials)} done; {names}")
            time.sleep(0.1)
            for it in [it for it in running if it.process.poll() is not None]:
                running.remove(it)
                ended += 1
                wrong = it.end()
                progress.done(f"{it.name}: {it.passed} passed, {it.failed} failed")
                for line in wrong:
                    print(f"{it.name}: {line}", flush=True)
        progress.clear()
    except BaseException:
        # What was started ends with this command.
        signal.pthread_sigmask(signal.SIG_BLOCK, ENDING)
        for it in running:
            it.stop()
        raise
