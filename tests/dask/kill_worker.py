"""Runs a Dask job on a cluster of two workers, and kills one of them once the job has written 20 parts.

    python3 kill_worker.py FOLDER COMMAND..

COMMAND is the job, which writes parts into FOLDER. The status is that of the job; it is 1 if the job ends before, or if
the worker holds no tasks. Prints their number.
"""
import glob
import os
import signal
import subprocess
import sys
import time

from distributed import Client, LocalCluster

if __name__ == "__main__":
    folder, *command = sys.argv[1:]
    with LocalCluster(n_workers=2, threads_per_worker=1, memory_limit=0, dashboard_address=None,
                      local_directory=os.path.dirname(folder)) as cluster, Client(cluster) as client:
        worker, process = client.run(os.getpid).popitem()
        job = subprocess.Popen(command, env={**os.environ, "DASK_SCHEDULER_ADDRESS": cluster.scheduler_address})
        while len(glob.glob(f"{folder}/part-*")) < 20 and job.poll() is None:
            time.sleep(0.01)
        held = len(client.processing()[worker])
        os.kill(process, signal.SIGKILL)
        status = job.wait()
    print(f"a worker was killed that held {held} tasks")
    sys.exit(status if held else 1)
