#!/usr/bin/env python3
"""The jobs of a day on Dask's distributed scheduler.

    on_dask.py FOLDER OUT [SCHEDULER]

FOLDER, OUT and what is written are those of day.sh. SCHEDULER is the address of one that runs, as tcp://host:8786. Its workers have
this repository, the program, FOLDER and OUT at the same paths; start each with --nthreads 1. Without it two workers are
started here.

If a worker dies, Dask does its job again on another one; a job that fails is done again, at most twice. If one still fails, the
others end, nothing is merged, and the status is not 0. The same call again does what is missing.
"""
import glob
import os
import subprocess
import sys

from distributed import Client, wait

HERE = os.path.dirname(os.path.realpath(__file__))
SETTINGS = {name: os.environ[name] for name in ("NMS_REVIEW", "MAP", "MARKET", "LIMIT") if name in os.environ}


def job(path, out):
    """One file, on a worker, whose environment is its own."""
    subprocess.run([f"{HERE}/job.sh", path, out], env={**os.environ, **SETTINGS}, check=True)


def main(folder, out, scheduler=None):
    folder, out = os.path.realpath(folder), os.path.realpath(out)
    os.makedirs(out, exist_ok=True)
    paths = sorted(glob.glob(f"{glob.escape(folder)}/**/SPLITS_US_ALL_BBO_*", recursive=True))
    with Client(scheduler) if scheduler else Client(n_workers=2, threads_per_worker=1, dashboard_address=None) as client:
        jobs = client.map(job, paths, out=out, retries=2, pure=False)
        wait(jobs)
        client.gather(jobs)
    subprocess.run([f"{HERE}/day.sh", folder, out, "1"], check=True)


if __name__ == "__main__":
    main(*sys.argv[1:])
