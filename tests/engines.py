#!/usr/bin/env python3
"""Runs a made day by the scripts of examples/real_day/ on the engines that are installed: GNU parallel, Slurm and Dask.

    tests/engines.py PROGRAM      PROGRAM is nms_review

Each engine has two workers, which must be at work at once. One job is killed, then its worker with it, and the day must come to the
bytes that day.sh writes alone. A file that is torn stops the merge until it is mended. Slurm gets a controller, two nodes and a munge of its own, which end with the trial. An engine that
is not installed is skipped by its name. It prints a line for each difference, and last `N passed, M failed`, with the number of
those skipped; status 1 at a difference.
"""
import contextlib
import getpass
import os
import shutil
import signal
import socket
import subprocess
import sys
import tempfile
import time

from stored import EXAMPLES
from trials import Lacking, Trial, Wrong, run

PLACE = os.path.join(EXAMPLES, "real_day")
# A trial on a busy machine.
MOST = 900
# Stands in for the program. The imports of the letters A and B wait for each other, so two workers are at work at once. Then B's
# kills what the file `kill` names, once: its job, or the job and the parent of that.
PROGRAM = r"""#!/usr/bin/env bash
room=$(dirname "$0")
words=$*
case $words in
*/[AB]' --shards '*)
    out=${words%% --shards*} letter=${out##*/}
    touch "$room/at.$letter"
    for _ in $(seq 600); do [ -e "$room/at.A" ] && [ -e "$room/at.B" ] && break; sleep 0.1; done
    [ -e "$room/at.A" ] && [ -e "$room/at.B" ] || exit 70
    if [ "$letter" = B ] && [ "$(cat "$room/kill")" != "torn file" ] && mkdir "$room/killed" 2> /dev/null; then
        case $(cat "$room/kill") in
        job) kill -9 $PPID ;;
        worker) kill -9 $(ps -o ppid= -p $PPID) $PPID ;;
        node) kill -9 $(cat "$room/slurm/$SLURMD_NODENAME.pid") $(ps -o ppid= -p $PPID) $PPID ;;
        esac
        exit 1
    fi ;;
esac
exec "$(cat "$room/program")" "$@"
"""


def need(*names):
    """Commands, all installed."""
    lacking = [name for name in names if not (shutil.which(name) or shutil.which(name, path="/usr/sbin"))]
    if lacking:
        raise Lacking(f"there is no {', '.join(lacking)}")


def files_of(out):
    """Each file of a day with its bytes, except the engine's files."""
    found = {}
    for at, _, names in os.walk(out):
        for name in names:
            if name.split(".")[0] not in ("parallel", "slurm"):
                with open(os.path.join(at, name), "rb") as file:
                    found[os.path.relpath(os.path.join(at, name), out)] = file.read()
    return found


class Day:
    """A made day in a folder, and the program that kills."""

    def __init__(self, room, program, kill):
        self.room, self.given, self.out = room, os.path.join(room, "given"), os.path.join(room, "out")
        self.env = dict(os.environ, NMS_REVIEW=os.path.join(room, "nms_review"), LIMIT="300")
        for name, text in (("nms_review", PROGRAM), ("program", program), ("kill", kill)):
            with open(os.path.join(room, name), "w", encoding="utf-8") as file:
                file.write(text)
        os.chmod(self.env["NMS_REVIEW"], 0o755)
        os.mkdir(self.given)
        subprocess.run([sys.executable, os.path.join(PLACE, "make_day.py"), self.given, "3000", "ABCD", "4"], check=True)

    def run(self, *words, status=0):
        """Calls a script, which must end so."""
        ran = subprocess.run(words, stdin=subprocess.DEVNULL, capture_output=True, env=self.env, timeout=MOST, check=False)
        if (ran.returncode == 0) != (status == 0):
            raise Wrong(f"{words[0]}: status {ran.returncode}, {ran.stderr[-2000:]!r}")

    def follow(self, kill, *words):
        """Runs the jobs by a script. If a file is torn, nothing is merged, and the same call merges the day once it is repaired."""
        if kill == "torn file":
            path = os.path.join(self.given, "SPLITS_US_ALL_BBO_B_20240102.gz")
            with open(path, "rb") as file:
                right = file.read()
            with open(path, "wb") as file:
                file.write(right[:1000])
            self.run(*words, status=1)
            there = sorted(it for it in os.listdir(self.out) if it.split(".")[0] not in ("parallel", "slurm"))
            if there != ["A", "C", "D"]:
                raise Wrong(f"of a torn file {there} are there")
            with open(path, "wb") as file:
                file.write(right)
        self.run(*words)
        self.ended(kill != "torn file")

    def ended(self, was_killed):
        """The day is that of day.sh, byte for byte, and a job was killed, if one was to be."""
        if os.path.exists(os.path.join(self.room, "killed")) != was_killed:
            raise Wrong(f"a job was killed: {not was_killed}")
        self.run(os.path.join(PLACE, "day.sh"), self.given, os.path.join(self.room, "alone"), "1")
        ours, wanted = files_of(self.out), files_of(os.path.join(self.room, "alone"))
        differ = [name for name in sorted({*ours, *wanted}) if ours.get(name) != wanted.get(name)]
        if differ or len(wanted) < 40:
            raise Wrong(f"{len(wanted)} files, of which these differ: {differ}")


@contextlib.contextmanager
def a_day(program, kill):
    with tempfile.TemporaryDirectory(prefix="nms-") as room:
        yield Day(room, program, kill)


def on_parallel(program, kill):
    """A job that is killed is done again; if parallel itself is, by another call."""
    need("parallel")
    with a_day(program, kill) as day:
        words = (os.path.join(PLACE, "on_parallel.sh"), day.given, day.out, "-j2")
        if kill == "worker":
            day.run(*words, status=1)
        day.follow(kill, *words)


def on_dask(program, kill):
    """A job that is killed is done again, and so is that of a worker that is."""
    python = next((it for it in ("python3", "/usr/bin/python3")
                   if subprocess.run([it, "-c", "import distributed"], capture_output=True, check=False).returncode == 0), None)
    if python is None:
        raise Lacking("no Python here has distributed")
    with a_day(program, kill) as day:
        day.follow(kill, python, os.path.join(PLACE, "on_dask.py"), day.given, day.out)


def free_ports(count):
    """Ports at which no process listens, each another one."""
    with contextlib.ExitStack() as stack:
        sockets = [stack.enter_context(socket.socket()) for _ in range(count)]
        for it in sockets:
            it.bind(("127.0.0.1", 0))
        return [it.getsockname()[1] for it in sockets]


@contextlib.contextmanager
def slurm(room):
    """A controller, two nodes of one processor each, and munge, all in a folder. Gives what the environment needs."""
    need("sbatch", "slurmctld", "slurmd", "munged")
    os.mkdir(room, 0o755)
    with open(f"{room}/key", "wb") as file:
        file.write(os.urandom(1024))
    os.chmod(f"{room}/key", 0o400)
    host, nodes, ports = socket.gethostname().split(".")[0], ("n1", "n2"), free_ports(3)
    lines = ["ClusterName=trial", f"SlurmctldHost={host}(127.0.0.1)", f"SlurmctldPort={ports[0]}", f"SlurmUser={getpass.getuser()}",
             f"SlurmdUser={getpass.getuser()}", "AuthType=auth/munge", f"AuthInfo=socket={room}/munge", f"StateSaveLocation={room}/state",
             f"SlurmdSpoolDir={room}/%n.spool", f"SlurmctldPidFile={room}/ctl.pid", f"SlurmdPidFile={room}/%n.pid",
             f"SlurmctldLogFile={room}/ctl.log", f"SlurmdLogFile={room}/%n.log", "ProctrackType=proctrack/linuxproc", "TaskPlugin=task/none",
             "SelectType=select/cons_tres", "SelectTypeParameters=CR_Core", "ReturnToService=2", "SlurmdTimeout=10", "MpiDefault=none",
             "SlurmdParameters=config_overrides", "SchedulerParameters=sched_interval=2", "JobAcctGatherType=jobacct_gather/none",
             *(f"NodeName={it} NodeHostname={host} NodeAddr=127.0.0.1 Port={port} CPUs=1" for it, port in zip(nodes, ports[1:])),
             "PartitionName=all Nodes=ALL Default=YES State=UP"]
    with open(f"{room}/slurm.conf", "w", encoding="ascii") as file:
        file.write("\n".join(lines) + "\n")
    env = {"SLURM_CONF": f"{room}/slurm.conf", "PATH": f"{os.environ['PATH']}:/usr/sbin"}
    calls = [["munged", "--foreground", "--force", f"--socket={room}/munge", f"--key-file={room}/key", f"--pid-file={room}/munge.pid",
              f"--seed-file={room}/seed", f"--log-file={room}/munge.log"],
             ["slurmctld", "-D", "-i", "-f", f"{room}/slurm.conf"], *(["slurmd", "-D", "-f", f"{room}/slurm.conf", "-N", it] for it in nodes)]
    running = []
    try:
        for words in calls:
            with open(f"{room}/said.{len(running)}", "wb") as said:
                running.append(subprocess.Popen(words, env={**os.environ, **env}, stdin=subprocess.DEVNULL, stdout=said, stderr=said))
            time.sleep(1)
        end = time.monotonic() + 120
        while subprocess.run(["sinfo", "-h", "-t", "idle", "-o", "%D"], env={**os.environ, **env}, capture_output=True, check=False).stdout.strip() != b"2":
            if time.monotonic() > end:
                raise Wrong(f"Slurm does not start: {[it.poll() for it in running]}, see {room}")
            time.sleep(1)
        yield env
    finally:
        for it in reversed(running):
            it.send_signal(signal.SIGTERM)
        for it in reversed(running):
            try:
                it.wait(20)
            except subprocess.TimeoutExpired:
                it.kill()
                it.wait()


def on_slurm(program, kill):
    """A job that is killed is done again, and so is that of a node that is."""
    with a_day(program, kill) as day, slurm(os.path.join(day.room, "slurm")) as env:
        day.env.update(env)
        day.follow(kill, os.path.join(PLACE, "on_slurm.sh"), day.given, day.out)


if __name__ == "__main__":
    PATH = os.path.realpath(sys.argv[1])
    KINDS = (on_parallel, ("job", "worker", "torn file")), (on_dask, ("job", "worker", "torn file")), (on_slurm, ("job", "node", "torn file"))
    TRIALS = [Trial(f"{it.__name__}: a {kill}", it, (PATH, kill)) for it, kills in KINDS for kill in kills]
    sys.exit(run("engines", TRIALS, alone=True, may_lack=True))
