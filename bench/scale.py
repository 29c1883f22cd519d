#!/usr/bin/env python3
"""Meshes a made raster of any size by one process, a pool, a LocalCluster of Dask and workers that are started by hand, of which one
is killed; prints rows for results.md. All have to write the same bytes. Nothing here is a test. Wants what `calfrewin` wants, and
python3-distributed for Dask.

usage: bench/scale.py [ERROR..]     after `lib/build`; SIDE=20000 TILE=513 ROOM=a folder with room, which is left; RUNS=one,pool,..;
                                    CHECK=1 checks the tiles of the last run, too, by so many processes: those of the
                                    others are the same; PLANT=1 checks them with three faults"""
import contextlib
import hashlib
import json
import os
import pathlib
import resource
import shutil
import signal
import subprocess
import sys
import time

import numpy as np

TOP = pathlib.Path(__file__).resolve().parents[1]
sys.path.insert(0, str(TOP / "python/src"))
SIDE, TILE = int(os.environ.get("SIDE", 20_000)), int(os.environ.get("TILE", 513))
ROOM = pathlib.Path(os.environ.get("ROOM", "/tmp/calfrewin-scale"))
RUNS = os.environ.get("RUNS", "alone,within,sums,one,pool,cluster,hand").split(",")
STRIP, OCTAVES, RELIEF, SMOOTHNESS = 128, 12, 1500.0, 1.2
SECONDS = 0.5  # between looks at the memory of workers


def noise(rows, columns, level):
    """Numbers from -1 to 1 by a hash of their place: the same at every run."""
    row, column = np.asarray(rows, np.uint32)[:, None], np.asarray(columns, np.uint32)
    found = row * np.uint32(0x9E3779B1) ^ column * np.uint32(0x85EBCA77) ^ np.uint32(level * 0xC2B2AE3D & 0xFFFFFFFF)
    for shift, factor in ((15, 0x2C1B3C6D), (12, 0x297A2D39), (15, 1)):
        found = (found ^ found >> np.uint32(shift)) * np.uint32(factor)
    return (found / 2.0 ** 31 - 1).astype(np.float32)


def strip(begin, end):
    """Rows of the terrain: noise on lattices of 4096, 2048, .. points, smooth between, half as high or so each."""
    found = np.zeros((end - begin, SIDE), np.float32)
    for octave in range(OCTAVES + 1):
        step = 1 << (OCTAVES - octave)
        first, last = begin // step, (end - 1) // step + 1
        lattice = noise(np.arange(first, last + 1), np.arange(SIDE // step + 2), octave)
        for axis, places in ((1, np.arange(SIDE)), (0, np.arange(begin, end) - first * step)):
            at, part = places // step, (places % step / step).astype(np.float32)
            part = part * part * (3 - 2 * part)
            low, high = np.take(lattice, at, axis), np.take(lattice, at + 1, axis)
            weight = part if axis else part[:, None]
            lattice = low + weight * (high - low)
        found += lattice * np.float32(RELIEF * 2 ** (-SMOOTHNESS * octave))
    return found + np.float32(2 * RELIEF)


def raster():
    """The GeoTIFF: float32 in blocks of 512 x 512, deflated."""
    import rasterio
    from rasterio.transform import from_origin
    path = ROOM / f"{SIDE}.tif"
    if path.exists():
        return path
    began = time.perf_counter()
    with rasterio.open(ROOM / "new.tif", "w", driver="GTiff", width=SIDE, height=SIDE, count=1, dtype="float32", crs="EPSG:32632",
                       transform=from_origin(300_000, 5_600_000, 10, 10), tiled=True, blockxsize=512, blockysize=512,
                       compress="deflate", zlevel=1, predictor=3, bigtiff="yes") as file:
        for begin in range(0, SIDE, STRIP):
            rows = strip(begin, min(SIDE, begin + STRIP))
            file.write(np.rint(rows * 100) / 100, 1, window=((begin, begin + len(rows)), (0, SIDE)))
    os.replace(ROOM / "new.tif", path)
    print(f"# the raster took {time.perf_counter() - began:.0f} s, and has {path.stat().st_size / 1e6:.0f} MB", flush=True)
    return path


def alone(path, error):
    """Processor seconds of GDAL for all points, and of the library for the finest tiles, each fitted once with its centre."""
    from calfrewin import Fitter, tiles
    from calfrewin.blocks import read
    from calfrewin.ground import ground_of
    from calfrewin.raster import open_raster
    from calfrewin.workers import prepare
    prepare()
    opened = open_raster(str(path))
    plan = tiles.plan_of(opened, str(ROOM / "none"), error=error, tile=TILE)
    reading, fitting = Spent(), Spent()
    span, centre = plan.steps << plan.depth, plan.steps // 2 * (plan.steps + 2)
    for row, column in np.ndindex(*plan.count(plan.depth)):
        with reading:
            opened.heights(row * span, column * span, min(span + 1, SIDE - row * span), min(span + 1, SIDE - column * span))
        whole = read(plan, plan.depth, row, column)
        tiles_of = (min(1 << plan.depth, all_ - (at << plan.depth)) for all_, at in zip(plan.count(0), (row, column)))
        for i, j in np.ndindex(*tiles_of):
            own = whole.tile(i, j, plan.steps)
            ground = ground_of(plan, 0, (row << plan.depth) + i, (column << plan.depth) + j, own)
            tolerance = ground.tolerances(error, own)
            with fitting, Fitter(ground.grid) as fitter:
                fitter.fit(tolerance, [centre])
                fitter.leaves()
    return reading.seconds, fitting.seconds


def within(path, error):
    """Processor seconds of a run in this process, and of them those in GDAL and in the library, all levels and calls."""
    from calfrewin import _owner, raster, tiles
    from calfrewin.workers import prepare
    prepare()
    whole, reading, fitting = Spent(), Spent(), Spent()
    was = raster.Raster._numbers, _owner.Owner._call
    raster.Raster._numbers, _owner.Owner._call = reading.timed(was[0]), fitting.timed(was[1])
    with whole:
        tiles.build(tiles.plan_of(raster.open_raster(str(path)), str(ROOM / "within"), error=error, tile=TILE))
    raster.Raster._numbers, _owner.Owner._call = was
    shutil.rmtree(ROOM / "within")
    return whole.seconds, reading.seconds, fitting.seconds


class Spent:
    """Processor seconds within `with` blocks, or calls."""
    seconds = 0.0

    def __enter__(self):
        self.began = time.process_time()

    def __exit__(self, *_):
        self.seconds += time.process_time() - self.began

    def timed(self, function):
        def call(*words):
            with self:
                return function(*words)
        return call


def timed(function, words):
    """A task, with the process that did it, and the seconds that it took there by the clock and of the processor."""
    clock, processor = time.perf_counter(), time.process_time()
    found = function(*words)
    return found, os.getpid(), time.perf_counter() - clock, time.process_time() - processor


class Timed:
    """Workers that note of each of their tasks what `timed` tells, by the times they were given some."""
    def __init__(self, hands, waves):
        self.hands, self.waves = hands, waves

    def do(self, tasks):
        self.waves.append([])
        for task, (found, *spent) in self.hands.do({task: (timed, call) for task, call in tasks.items()}):
            self.waves[-1].append(spent)
            yield task, found


def sums(path, error, what, client=None, workers=1):
    """One run, and what of it was within tasks. Along the longest way a wave of tasks takes as long as the process that did
    most of it, and what is in no task is done in between: that is how long a run takes where each process has a processor of its own."""
    from calfrewin import raster, tiles
    waves, was = [], tiles.workers_of

    @contextlib.contextmanager
    def hands(*words):
        with was(*words) as found:
            yield Timed(found, waves)

    tiles.workers_of = hands
    out = ROOM / "sums"
    shutil.rmtree(out, ignore_errors=True)
    plan = tiles.plan_of(raster.open_raster(str(path)), str(out), error=error, tile=TILE)
    clock, processor = time.perf_counter(), time.process_time()
    told = tiles.build(plan, client=client, workers=workers)
    clock, processor = time.perf_counter() - clock, time.process_time() - processor
    tiles.workers_of = was
    spent = [it for wave in waves for it in wave]
    within = sum(it[2] for it in spent)
    own = processor - (within if spent[0][0] == os.getpid() else 0.0)
    longest = own + sum(max(sum(it[2] for it in wave if it[0] == process) for process in {it[0] for it in wave}) for wave in waves)
    by_wave = [sum(it[2] for it in wave) for wave in waves]
    rounds = len(told["rounds"])
    print(f"# {error:g}, {what}: {len(spent)} tasks; clock {clock:.1f} s, in tasks {sum(it[1] for it in spent):.1f}, load "
          f"{os.getloadavg()[0]:.0f}; processor: in tasks {within:.1f} s, beside them {own:.1f}, along the longest way {longest:.1f}; "
          f"rounds {', '.join(f'{it:.1f}' for it in by_wave[:rounds])}, writing {sum(by_wave[rounds:]):.1f}; SHA-256 "
          f"{digest(out)[:16]}", flush=True)
    shutil.rmtree(out)
    return (clock - sum(it[1] for it in spent)) / len(spent), longest


def all_sums(path, error):
    """Dask's overhead a task, which a run in one process has not; and two workers beside one, by processor time."""
    from distributed import Client
    here, one = sums(path, error, "one process")
    _, two = sums(path, error, "two processes", workers=2)
    for workers in (1, 2):
        with local_cluster(workers) as cluster, Client(cluster) as client:
            client.wait_for_workers(workers)
            client.run(__import__, "calfrewin.tiles")  # which takes as long as a hundred tasks' ways
            over, longest = sums(path, error, f"Dask, {workers} workers", client=client)
            if workers == 1:
                print(f"# {error:g}: beside its tasks one worker of Dask takes {1000 * over:.1f} ms a task by the clock, one process "
                      f"{1000 * here:.1f} ms", flush=True)
    print(f"# {error:g}: by processor time two are {one / two:.2f} times as fast as one in a pool, {one / longest:.2f} times by Dask",
          flush=True)


def local_cluster(workers):
    from distributed import LocalCluster
    return LocalCluster(n_workers=workers, threads_per_worker=1, host="127.0.0.1", dashboard_address=None,
                        local_directory=str(ROOM / "dask"))


def digest(folder):
    found = hashlib.sha256()
    for path in sorted(folder.rglob("*")):
        if path.is_file():
            found.update(str(path.relative_to(folder)).encode() + path.read_bytes())
    return found.hexdigest()


def program(path, out, error, *words):
    """One run of the program: its report, with its processor seconds, and the most memory of it and of its processes."""
    shutil.rmtree(out, ignore_errors=True)
    child = subprocess.Popen([sys.executable, "-m", "calfrewin", str(path), f"{out}/", "--error", str(error), "--tile", str(TILE),
                              "--quiet", "--json", *words], env=os.environ | {"PYTHONPATH": str(TOP / "python/src")},
                             stdout=subprocess.PIPE, text=True)
    most, ended = 0, (0, 0, None)
    while ended[0] == 0:
        most = max(most, *(resident(it) for it in family(child.pid)), 0)
        time.sleep(SECONDS)
        ended = os.wait4(child.pid, os.WNOHANG)
    child.returncode = os.waitstatus_to_exitcode(ended[1])
    if child.returncode:
        sys.exit(f"bench/scale.py: status {child.returncode}")
    return json.loads(child.stdout.read()) | {"processor": ended[2].ru_utime + ended[2].ru_stime}, most


def family(process):
    """A process and those that it started, as far as they are there."""
    found = [process]
    for task in pathlib.Path(f"/proc/{process}/task").glob("*/children"):
        try:
            found += [one for child in task.read_text().split() for one in family(int(child))]
        except OSError:
            pass
    return found


def resident(process):
    try:
        return int(pathlib.Path(f"/proc/{process}/statm").read_text().split()[1]) * resource.getpagesize() / 1e6
    except OSError:
        return 0


def started(name, *words):
    log = open(ROOM / f"{name}.log", "a")
    return subprocess.Popen([sys.executable, "-m", f"distributed.cli.{name}", *words], stdout=log, stderr=log,
                            env=os.environ | {"PYTHONPATH": str(TOP / "python/src")})


def by_cluster(path, out, error, workers):
    """A LocalCluster, whose scheduler is in this process."""
    with local_cluster(workers) as cluster:
        before = spent(os.getpid())
        told, _ = program(path, out, error, "--dask", cluster.scheduler_address)
        told["processor"] += spent(os.getpid()) - before
        return told, max(resident(it) for it in family(os.getpid())[1:])


def by_hand(path, out, error, workers, kill_after):
    """A scheduler and workers as they are started on a cluster; one is killed, and does not come back."""
    (ROOM / "scheduler.json").unlink(missing_ok=True)
    file = ("--scheduler-file", str(ROOM / "scheduler.json"))
    processes = [started("dask_scheduler", "--host", "127.0.0.1", "--port", "0", "--no-dashboard", *file)]
    try:
        while not (ROOM / "scheduler.json").exists():
            time.sleep(0.1)
        processes += [started("dask_worker", *file, "--host", "127.0.0.1", "--no-dashboard", "--nthreads", "1", "--no-nanny",
                              "--local-directory", str(ROOM / f"worker{k}")) for k in range(workers)]
        address = json.loads((ROOM / "scheduler.json").read_text())["address"]
        time.sleep(10)
        killer = subprocess.Popen(["sh", "-c", f"sleep {kill_after}; kill -KILL {processes[1].pid}"])
        before = sum(spent(it.pid) for it in processes)
        told, _ = program(path, out, error, "--dask", address)
        most = max(resident(child) for it in processes[1:] for child in family(it.pid))
        told["processor"] += sum(spent(it.pid) for it in processes) - before
        killer.wait()
        print(f"# worker 1 ended with {processes[1].wait()} after {kill_after} s", flush=True)
        return told, most
    finally:
        for process in processes:
            process.send_signal(signal.SIGKILL)
            process.wait()


def spent(process):
    """Processor seconds of a process, also of one that has ended, and of those that it started."""
    found = 0.0
    for it in family(process):
        try:
            words = pathlib.Path(f"/proc/{it}/stat").read_text().rpartition(")")[2].split()
            found += (int(words[11]) + int(words[12])) / os.sysconf("SC_CLK_TCK")
        except OSError:
            pass
    return found


def row(error, what, told, memory, same):
    rounds = "; ".join(f"{it['tiles']} tiles in {it['seconds']:.1f}" for it in told["rounds"])
    stages = ", ".join(f"{stage} {seconds:.0f}" for stage, seconds in told["spent"].items())
    print(f"| {error:g} | {what} | {told['seconds']:.1f} | {told['processor']:.1f} | {memory:.0f} | {told['triangles']:,} | "
          f"{told['bytes'] / 1e6:.0f} | {rounds} | {stages} | {same} |", flush=True)


def checked(path, out, error):
    words = (sys.executable, "-m", "calfrewin", "check", str(out), "--raster", str(path), "--error", str(error), "--quiet", "--json",
             "--workers", os.environ.get("CHECK", "1"))
    before = resource.getrusage(resource.RUSAGE_CHILDREN)
    told = subprocess.run(words, stdout=subprocess.PIPE, text=True, env=os.environ | {"PYTHONPATH": str(TOP / "python/src")})
    after, found = resource.getrusage(resource.RUSAGE_CHILDREN), json.loads(told.stdout)
    processor = after.ru_utime + after.ru_stime - before.ru_utime - before.ru_stime
    print(f"# check: {json.dumps(found | {'wrong': len(found['wrong']), 'processor': round(processor, 1)})}", flush=True)
    return found["wrong"]


def planted(path, out, error):
    """The same check of the tiles with a crack, a hole and an error in three tiles of the finest level, that has to find each."""
    sys.path.insert(0, str(TOP / "python/tests"))
    from calfrewin import blocks, tiles
    from calfrewin.raster import open_raster
    from calfrewin.tile import Part, write_tile
    from calfrewin.tileset import name
    from made import triangles_changed, vertex_moved
    raster = open_raster(str(path))
    unit = tiles.plan_of(raster, str(out), error=error, tile=TILE).unit
    plan = tiles.plan_of(raster, str(out), error=error / 5, tile=TILE, unit=unit)
    rows, columns = plan.count(0)
    at = [(row % rows, column % columns) for row, column in ((rows // 2, columns // 2), (1, 2), (rows - 2, 1))]
    names = [name(plan, 0, *it) for it in at]
    write_tile(plan, 0, *at[0], Part(blocks.read(plan, 0, *at[0])), {})  # finer than its neighbours, and fitted alone

    def doubled(triangles):
        triangles[0] = triangles[1]

    def raised(points):
        points[len(points) // 2, 1] += 2 * error

    triangles_changed(out / names[1], doubled)
    vertex_moved(out / names[2], raised)
    wrong = checked(path, out, error)
    # The edge that has a vertex of another tile within is that of a neighbour.
    for it, who, text in zip(names, ("", *names[1:]), ("a crack", "on one side", "is off by")):
        print(f"# planted in {it}: {next((line for line in wrong if who in line and text in line), 'NOT FOUND')}", flush=True)


def main():
    errors = [float(word) for word in sys.argv[1:]] or [5.0, 1.0]
    ROOM.mkdir(parents=True, exist_ok=True)
    path = raster()
    print("| error | run | s | processor s | MB a process | triangles | MB | rounds, s | s by stage, over all workers | SHA-256 |\n"
          + "|---" * 10 + "|", flush=True)
    for error in errors:
        if "alone" in RUNS:
            reading, fitting = alone(path, error)
            print(f"| {error:g} | the calls alone, finest tiles: GDAL {reading:.1f}, the library {fitting:.1f} | | "
                  f"{reading + fitting:.1f} | | | | | | |", flush=True)
        if "within" in RUNS:
            whole, reading, fitting = within(path, error)
            print(f"| {error:g} | one process, timed within: GDAL {reading:.1f}, the library {fitting:.1f} | | {whole:.1f} | | | | "
                  "| | |", flush=True)
        if "sums" in RUNS:
            all_sums(path, error)
        first = None
        for run in RUNS:
            out = ROOM / f"{run}_{error:g}"
            if run == "one":
                told, memory = program(path, out, error)
            elif run == "pool":
                told, memory = program(path, out, error, "--workers", "2")
            elif run == "cluster":
                told, memory = by_cluster(path, out, error, 2)
            elif run == "hand":
                told, memory = by_hand(path, out, error, 3, 20)
            else:
                continue
            same = digest(out)[:16]
            row(error, {"one": "one process", "pool": "two processes", "cluster": "Dask's LocalCluster, two workers",
                        "hand": "Dask, three workers started by hand, one killed"}[run], told, memory, same)
            first = first or same
            if same != first:
                sys.exit(f"bench/scale.py: {run} wrote other bytes")
            is_last = run == RUNS[-1]
            if os.environ.get("CHECK") and is_last:
                checked(path, out, error)
            if os.environ.get("PLANT") and is_last:
                planted(path, out, error)
            if not is_last or not os.environ.get("KEEP"):
                shutil.rmtree(out, ignore_errors=True)


if __name__ == "__main__":
    main()
