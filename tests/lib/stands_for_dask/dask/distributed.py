"""The part of Dask's client that tools/at-scale/in-parts calls, by threads of this process."""
from concurrent.futures import ThreadPoolExecutor


class Client:
    """A client whose calls run in threads."""

    def __init__(self, scheduler=None, n_workers=2, threads_per_worker=1):
        self.pool = ThreadPoolExecutor(n_workers)

    def submit(self, call, *words, pure=True):
        return self.pool.submit(call, *words)

    def gather(self, futures):
        return [future.result() for future in futures]
