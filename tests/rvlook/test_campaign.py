"""Long work in parts with GNU parallel, as in docs/ASK.md. Work that is killed and resumed loses nothing, repeats nothing, and has the results of
one run."""
import contextlib
import json
import os
import shutil
import signal
import subprocess

import pytest
from support.limits import wait_until
from support.processes import of_session

from conftest import EXAMPLES, PROGRAMS, RVLOOK

pytestmark = pytest.mark.skipif(not shutil.which("parallel"), reason="GNU parallel is not installed")
WINDOW, ADDS = PROGRAMS.parent / "images" / "window" / "image", EXAMPLES / "enclaves" / "adds" / "image"
TRIES, PART = 30, 3
LEAK = ("leak", "--monitor", WINDOW, "--at", "80020800:4", "--seed", "5")
RACES = ("races", "--monitor", "--timer", "2", "--outcome", "80030000:12", ADDS)


class Campaign:
    """A job of GNU parallel over many values: with a log of the jobs that have ended, and a file for the output of each."""

    def __init__(self, folder, bench, job, values):
        self.folder, self.environment = folder, {**os.environ, "RVBENCH": bench, "TERM": "dumb"}
        self.log = folder / "log"
        self.command = ["parallel", "--will-cite", "--jobs", "2", "--joblog", self.log, "--resume-failed", "--results", "%s/out/" % folder, job,
                        ":::", *map(str, values)]

    def run(self):
        done = subprocess.run(self.command, stdout=subprocess.DEVNULL, stderr=subprocess.PIPE, text=True, check=False, env=self.environment)
        assert (done.returncode, done.stderr) == (0, "")

    def kill_after(self, count):
        """Starts the work, and kills it with its jobs after this many have ended. GNU parallel gives each job a process group of its own."""
        process = subprocess.Popen(self.command, stdout=subprocess.DEVNULL, stderr=subprocess.DEVNULL, env=self.environment, start_new_session=True)
        wait_until(lambda: len(self.ended()) >= count)
        while found := of_session(process.pid):
            for it in found:
                with contextlib.suppress(ProcessLookupError):
                    os.kill(it, signal.SIGKILL)
        process.wait()

    def ended(self):
        """Returns the numbers of the jobs in the log."""
        if not self.log.exists():
            return []
        return [int(line.split("\t")[0]) for line in self.log.read_text().splitlines() if line[0].isdigit()]

    def objects(self, name):
        """Returns the objects that all jobs wrote, of one kind."""
        found = [json.loads(line) for path in (self.folder / "out").glob("**/stdout") for line in path.read_text().splitlines()]
        return [it for it in found if it["object"] == name]


def job_of(words, rest):
    return " ".join([*map(str, (RVLOOK, *words)), rest, "--json", "--exit-zero"])


def test_killed_campaign_is_resumed_without_loss(results, bench, tmp_path):
    """The last jobs wait for a file, so that the work is killed before its end."""
    resumed = tmp_path / "resumed"
    job = job_of(LEAK, "--tries %d --from {} --to $(({} + %d))" % (TRIES, PART - 1))
    waiting = "[ {} -lt %d ] || until [ -e %s ]; do sleep 0.1; done; " % (TRIES - 2 * PART, resumed)
    campaign = Campaign(tmp_path, bench, waiting + job, range(1, TRIES, PART))
    campaign.kill_after(2)
    assert 0 < len(campaign.ended()) < TRIES // PART, "it was not killed between two jobs"
    resumed.touch()
    campaign.run()
    assert sorted(campaign.ended()) == list(range(1, TRIES // PART + 1)), "a job is missing, or was done twice"
    key = lambda it: (it["number"], it["bytes"], it["channels"])
    whole = [key(it) for it in results(*LEAK, "--tries", str(TRIES), "--exit-zero") if it["object"] == "pair"]
    assert sorted(map(key, campaign.objects("pair"))) == whole


def test_parts_by_the_first_step_of_the_timer_have_all_final_states(results, bench, tmp_path):
    campaign = Campaign(tmp_path, bench, job_of(RACES, "--from {} --to $(({} + 39))"), range(0, 120, 40))
    campaign.run()
    key = lambda it: (it["values"]["80030000:12"], it["harts"][0]["pc"])
    assert {key(it) for it in results(*RACES, "--exit-zero") if it["object"] == "final_state"} == set(map(key, campaign.objects("final_state")))
    assert [it["complete"] for it in campaign.objects("races")] == [True] * 3


def test_folder_of_programs_is_searched(bench, tmp_path):
    for name in ("enclaves/two_harts", "programs/race"):
        shutil.copy(EXAMPLES / name / "image", tmp_path / name.split("/")[1])
    words = ("races", "--monitor", "--harts", "2", "--limit", "60")
    campaign = Campaign(tmp_path, bench, job_of(words, "{}"), [tmp_path / "two_harts", tmp_path / "race"])
    campaign.run()
    assert [it["complete"] for it in campaign.objects("races")] == [True, True]
