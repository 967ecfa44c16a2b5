"""200,000 links, normalized and counted by host by a scheduler of Dask and two worker processes on the loopback address, which this
test starts and stops. The counts are those of one process, also if a worker is killed while it works."""
import collections
import random
import subprocess
import sys
import tempfile
import time

import distributed
import uriparse

COUNT = 200_000
PARTITIONS = 80
SPELLINGS = ["http://h{host}.example/{page}", "HTTP://H{host}.EXAMPLE:80/a/../{page}", "//%68{host}.example?{page}", "no link {page}", "mailto:{page}"]


def links_of(partition):
    """The links of a partition, the same in each process."""
    draw = random.Random(partition)
    return [draw.choice(SPELLINGS).format(host=draw.randrange(500), page=draw.randrange(10**6)) for _ in range(COUNT // PARTITIONS)]


def hosts_of(links):
    normal = [link for link in uriparse.normalize_many(links) if link is not None]
    return collections.Counter(uriparse.get_many("host", normal))


def work(partition):
    """It takes a while, so that work is left when a worker ends."""
    time.sleep(0.05)
    return hosts_of(links_of(partition))


def count(client, first_done):
    """The sum of the partitions' counts. `first_done` is called after the first one."""
    total = collections.Counter()
    for future in distributed.as_completed(client.map(work, range(PARTITIONS), pure=False)):
        if not total:
            first_done()
        total.update(future.result())
    return total


def start(folder, *words):
    command = [sys.executable, "-m", "dask", *words, "--scheduler-file", folder + "/cluster.json", "--host", "127.0.0.1", "--no-dashboard"]
    with open(folder + "/log", "a") as log:
        return subprocess.Popen(command, cwd=folder, stdout=log, stderr=log)


def main():
    expected = sum((hosts_of(links_of(partition)) for partition in range(PARTITIONS)), collections.Counter())
    with tempfile.TemporaryDirectory() as folder:
        scheduler = start(folder, "scheduler", "--port", "0")
        workers = [start(folder, "worker", "--nthreads", "1", "--no-nanny") for _ in range(2)]
        try:
            with distributed.Client(scheduler_file=folder + "/cluster.json", timeout=120) as client:
                client.wait_for_workers(2, timeout=120)
                assert count(client, lambda: None) == expected
                assert count(client, workers[0].kill) == expected
                assert len(client.scheduler_info()["workers"]) == 1 and workers[1].poll() is None
                client.shutdown()
        finally:
            for process in (*workers, scheduler):
                process.kill()
                process.wait()
    print("%d links, %d hosts: as in one process, also with a worker killed midway" % (COUNT, len(expected)))


if __name__ == "__main__":
    main()
