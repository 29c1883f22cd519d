"""Tasks on workers: here, in processes of this machine, or on a cluster by Dask. What a task gives does not depend on which."""
from __future__ import annotations

import contextlib
import ctypes
import functools
import os
from typing import Any, Callable, Hashable, Iterator, Optional, Protocol

Call = tuple[Callable[..., Any], tuple[Any, ...]]  #: a function of a module, and its arguments
TRIES = 3  # of a task whose worker is gone, before it is taken to be the cause
# glibc lets go of memory at each large array if it is told a threshold, as Dask tells it; it takes twice the time then.
M_TRIM_THRESHOLD, M_MMAP_THRESHOLD = (-1, 1 << 28), (-3, 1 << 25)
CACHE = "64"  # megabytes of GDAL's: it takes a twentieth of the memory if nothing is said


class Lost(RuntimeError):
    """A task whose worker was lost again and again, or whose scheduler is gone."""


class Workers(Protocol):
    """What does tasks."""

    def do(self, tasks: dict[Hashable, Call]) -> Iterator[tuple[Any, Any]]:
        """Does all of them, in any order: the name of each and what it gives, as it is done."""


@functools.lru_cache(maxsize=1)
def prepare() -> None:
    """Sets what costs a worker time or memory if it is left as it is, once a process."""
    os.environ.setdefault("GDAL_CACHEMAX", CACHE)
    with contextlib.suppress(OSError, AttributeError):
        libc = ctypes.CDLL(None)
        for parameter, value in (M_TRIM_THRESHOLD, M_MMAP_THRESHOLD):
            libc.mallopt(parameter, value)


def prepared(function: Callable[..., Any], *words: Any) -> Any:
    """A call on a worker."""
    prepare()
    return function(*words)


class Here:
    """One task after another, in this process."""

    def do(self, tasks: dict[Hashable, Call]) -> Iterator[tuple[Any, Any]]:
        for task, (function, words) in tasks.items():
            yield task, prepared(function, *words)


class Pool:
    """Processes of this machine. One that dies takes the others with it; new ones do what is left."""

    def __init__(self, workers: int) -> None:
        self._workers = workers
        self._pool: Any = None

    def do(self, tasks: dict[Hashable, Call]) -> Iterator[tuple[Any, Any]]:
        from concurrent.futures import as_completed
        from concurrent.futures.process import BrokenProcessPool
        left, deaths = dict(tasks), 0
        while left:
            try:
                futures = {self._open().submit(prepared, function, *words): task for task, (function, words) in left.items()}
                for future in as_completed(futures):
                    found = future.result()
                    del left[futures[future]]
                    deaths = 0
                    yield futures[future], found
            except BrokenProcessPool:
                self.close()
                deaths += 1
                if deaths > TRIES:
                    raise Lost(f"workers died {deaths} times and no task was done in between: is there memory for "
                               f"{self._workers} of them?") from None

    def _open(self) -> Any:
        if self._pool is None:
            import multiprocessing
            from concurrent.futures import ProcessPoolExecutor
            self._pool = ProcessPoolExecutor(self._workers, mp_context=multiprocessing.get_context("spawn"))
        return self._pool

    def close(self) -> None:
        if self._pool is not None:
            self._pool.shutdown(wait=True, cancel_futures=True)
            self._pool = None


class Dask:
    """The workers of a dask.distributed.Client. A task whose worker is lost is done again on another one, by Dask."""

    def __init__(self, client: Any) -> None:
        self._client = client

    def do(self, tasks: dict[Hashable, Call]) -> Iterator[tuple[Any, Any]]:
        from distributed import as_completed
        futures = {self._client.submit(prepared, function, *words, pure=False, retries=TRIES): task
                   for task, (function, words) in tasks.items()}
        try:
            for future, found in as_completed(list(futures), with_results=True):  # type: ignore[no-untyped-call]
                task = futures.pop(future)
                if future.status != "finished":
                    raise Lost(f"a task was {future.status}: is the scheduler gone? The same call goes on from what is done")
                future.release()
                yield task, found
        finally:
            with contextlib.suppress(Exception):  # of a scheduler that is gone
                self._client.cancel(list(futures))


@contextlib.contextmanager
def workers_of(client: Any = None, workers: int = 1) -> Iterator[Workers]:
    """Those of a client, or so many processes; one is this one."""
    if client is not None:
        yield Dask(client)
    elif workers <= 1:
        yield Here()
    else:
        pool: Optional[Pool] = Pool(workers)
        assert pool is not None
        try:
            yield pool
        finally:
            pool.close()
