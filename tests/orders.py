"""Order files for the tests of whole programs, each with the listing that the second program gives.

Good orders, the second program's own cases, floods of brackets, cut and binary files.
"""
import os
import pathlib
import random
import subprocess
import tempfile

SECOND = os.path.join(os.path.dirname(os.path.abspath(__file__)), "..", "target", "second")


def listing(order):
    """The second program's answer."""
    return subprocess.run([SECOND, "list"], input=order, stdout=subprocess.PIPE, check=True).stdout.decode()


def fixed_cases():
    """The second program's own cases, with the listings that were written down by hand."""
    with tempfile.TemporaryDirectory() as folder:
        subprocess.run([SECOND, "cases", folder], stdout=subprocess.DEVNULL, check=True)
        for path in sorted(pathlib.Path(folder).iterdir()):
            if path.suffix != ".expected":
                yield path.name, path.read_bytes(), path.with_name(path.name + ".expected").read_text()


def some_order(rng):
    jobs = rng.choice([1, 3, 10, 10, 60, 400])
    boards = rng.choice([1, 2, 4, 16, 64])
    latest = max(2, 2 * jobs * 6 // boards)
    text = [f"(order {boards}"]
    for _ in range(jobs):
        due = rng.randint(1, latest)
        job = f"(job {rng.randint(1, min(10, due))} {due})"
        text.append(f"(group {rng.randint(due, latest)} {job})" if rng.random() < 0.3 else job)
    return ("\n".join(text) + ")\n").encode()


def hostile_files(rng):
    """The looping script's file and its relations."""
    yield "brackets-64k", b"(" * 65536
    yield "brackets-64k-and-one", b"(" * 65537
    yield "brackets-10m", b"(" * (10 << 20)
    yield "groups-unclosed-64k", (b"(order 1" + b"(group 5" * 8192)[:65536]
    yield "levels-33", b"(order 1" + b" (group 9" * 33 + b" (job 1 1)" + b")" * 34
    yield "levels-32", b"(order 1" + b" (group 9" * 32 + b" (job 1 1)" + b")" * 33
    yield "jobs-1001", b"(order 64" + b" (job 1 1000)" * 1001 + b")"
    yield "jobs-1000", b"(order 64" + b" (job 1 1000)" * 1000 + b")"
    yield "binary-64k", rng.randbytes(65536)
    yield "binary-1m", rng.randbytes(1 << 20)
    yield "binary-all", bytes(range(256)) * 16
    yield "zeros-64k", bytes(65536)
    good = b"(order 2 (group 9 (job 2 3) (group 3 (job 2 9))) (job 2 3))\n"
    for length in range(len(good)):
        yield f"cut-{length:02}", good[:length]
    for number in range(100):
        order = bytearray(some_order(rng))
        for _ in range(rng.randint(1, 3)):
            order[rng.randrange(len(order))] = rng.randrange(256)
        yield f"bitten-{number:03}", bytes(order)


def all_orders():
    rng = random.Random(1)
    orders = {name: (order, expected) for name, order, expected in fixed_cases()}
    for name, order in hostile_files(rng):
        orders[name] = (order, listing(order))
    for number in range(200):
        order = some_order(rng)
        orders[f"good-{number:03}"] = (order, listing(order))
    return orders
