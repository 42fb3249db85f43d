#!/usr/bin/env python3
"""Serves disks from buckets with the built program, over several runs. Usage: buckets.py PROGRAM

The store is s3_store.py of this folder, which checks each signature; it fails, hangs and shows old versions by a script. What one
run flushed has to be in the store and in the next run. Where moto and boto3 are installed, moto's server is a second store.
"""
import concurrent.futures, logging, os, random, signal, subprocess, sys, time

from expecting import ends, expect
from nbd_client import OPEN, Client
from s3_store import ID, KEY, Store

program = os.path.abspath(sys.argv[1])
BLOCK = 4096
CACHED_BLOCKS = 1000
DISC = bytes.fromhex("25609513 0000 0002") + bytes(20)
WRITE_A = bytes.fromhex("25609513 0000 0001 0000000000000001 0000000000001000 00001000") + b"A" * BLOCK


def words_of(store, size, key=KEY):
    return [program, "--stdio", f"--baseURL={store.url}", f"--accessId={ID}", f"--accessKey={key}", f"--size={size}", store.bucket]


def opened(store, size, key=KEY):
    return Client(*words_of(store, size, key))


def objects_of(disk):
    """The objects that a bucket has to have: those of the blocks that aren't zeros."""
    return {f"{at // BLOCK:08x}": bytes(disk[at:at + BLOCK])
            for at in range(0, len(disk), BLOCK) if disk[at:at + BLOCK] != bytes(BLOCK)}


def fill(client, disk, choice, count):
    """Random writes of the client, and the same to the bytes of its disk."""
    for _ in range(count):
        length = choice.choice([1, 512, BLOCK, 2 * BLOCK, 10000, 32768])
        offset = choice.randrange(len(disk) - length)
        if choice.random() < 0.3:
            expect("a write of zeros", client.write_zeroes(offset, length), 0)
            body = bytes(length)
        else:
            body = choice.choice([choice.randbytes(length), bytes(length)])
            expect("a write", client.write(offset, body), 0)
        disk[offset:offset + length] = body


def several_runs():
    """A disk of 1 MiB over three runs, the second of which is killed."""
    choice, disk = random.Random(7), bytearray(1 << 20)
    with Store() as store:
        client = opened(store, "1m")
        expect("the size", client.size, len(disk))
        fill(client, disk, choice, 20)
        expect("a write of block 0", client.write(0, b"begin"), 0)
        disk[:5] = b"begin"
        expect("a flush", client.flush(), 0)
        expect("the objects after a flush", store.objects == objects_of(disk), True)
        expect("the sizes of block 0", store.meta("00000000"),
               {"x-amz-meta-s3backer-filesize": "1048576", "x-amz-meta-s3backer-blocksize": "4096"})
        expect("the end", client.end(), (0, b""))

        client = opened(store, "1m")
        expect("the next run", client.read(0, len(disk)) == (0, bytes(disk)), True)
        fill(client, disk, choice, 20)
        expect("a flush", client.flush(), 0)
        flushed = bytes(disk)
        expect("a write that isn't flushed", client.write(0, b"later"), 0)
        client.kill()

        client = opened(store, "1m")
        error, found = client.read(0, len(disk))
        expect("what was flushed before a kill", (error, found[5:] == flushed[5:]), (0, True))
        expect("the bytes that weren't", found[:5] in (flushed[:5], b"later"), True)
        expect("zeros over all", client.write_zeroes(0, len(disk)), 0)
        expect("the end", client.end(), (0, b""))
        expect("a disk of zeros has no object", store.objects, {})
        expect("no request was refused", store.refused, [])


def failing(kind, every):
    """Every n-th request fails, and is tried again: the client sees nothing of it."""
    choice, disk = random.Random(11), bytearray(1 << 18)
    with Store(script=lambda number, method, name: kind if number % every == 0 else None) as store:
        client = opened(store, "256k")
        fill(client, disk, choice, 12)
        expect(f"a flush, {kind}", client.flush(), 0)
        expect(f"the objects, {kind}", store.objects == objects_of(disk), True)
        expect("the end", client.end(), (0, b""))
        client = opened(store, "256k")
        expect(f"the next run, {kind}", client.read(0, len(disk)) == (0, bytes(disk)), True)
        expect("the end", client.end(), (0, b""))
        expect(f"requests that failed, {kind}", len(store.requests) >= every, True)


def not_tried_again():
    """A refusal is told at once."""
    with Store(script=lambda number, method, name: 403 if method == "GET" else None) as store:
        client = opened(store, "64k")
        expect("a read that is refused", client.read(0, BLOCK), (5, b""))
        expect("one request", len(store.requests), 1)
        expect("the end", client.end(), (0, b""))
    with Store() as store:
        client = opened(store, "64k", key=KEY[::-1])
        expect("a write", client.write(0, b"A" * BLOCK), 0)
        expect("a flush with another key", client.flush(), 5)
        expect("its end", client.end(), (3, b"s3backer: store fault 403\n"))
        expect("no object", (store.objects, len(store.refused) > 0), ({}, True))


def old_versions():
    """An old version that is shown for a while is asked for again; one that is shown for longer than the limit is refused."""
    with Store() as store:
        # blocks that aren't known to be zeros, so that reads of them fill the cache
        for block in range(1, CACHED_BLOCKS + 1):
            store.put(f"{block:08x}", b"O" * BLOCK, {})

        def read_others():
            error, body = client.read(BLOCK, CACHED_BLOCKS * BLOCK)
            expect("other blocks", (error, body == b"O" * (CACHED_BLOCKS * BLOCK)), (0, True))

        client = opened(store, "8m")
        for age, wanted, name in [(4.0, (0, b"B" * BLOCK), "for a while"), (60.0, (5, b""), "for longer than the limit")]:
            store.age = 0.0
            client.write(0, b"A" * BLOCK)
            expect("a flush", client.flush(), 0)
            read_others()
            client.write(0, b"B" * BLOCK)
            expect("a flush", client.flush(), 0)
            begun = time.monotonic()
            read_others()
            store.age = age
            expect(f"an old version that is shown {name}", client.read(0, BLOCK), wanted)
            print(f"  old versions {name}: {time.monotonic() - begun:.1f} s after the flush")
        store.age = 0.0
        expect("the end", client.end(), (0, b""))


def hanging():
    """A store that doesn't answer one request is a fault after a while, which is tried again."""
    with Store(script=lambda number, method, name: 600.0 if number == 1 else None) as store:
        client = opened(store, "64k")
        begun = time.monotonic()
        expect("a read of a store that hangs", client.read(0, BLOCK), (0, bytes(BLOCK)))
        print(f"  a store that hangs: {time.monotonic() - begun:.1f} s")
        expect("the end", client.end(), (0, b""))


def unreachable():
    """A port where nobody listens: a fault after the retries."""
    with Store() as store:
        words = words_of(store, "64k")
    client = Client(*words)
    expect("a write", client.write(BLOCK, b"A" * BLOCK), 0)
    begun = time.monotonic()
    expect("a flush of a store that is gone", client.flush(), 5)
    expect("it was tried again for 30 s", 29 < time.monotonic() - begun < 40, True)
    client.kill()
    done = subprocess.run(words, input=OPEN + WRITE_A + DISC, capture_output=True, timeout=120)
    expect("a run over a store that is gone", (done.returncode, done.stderr), (3, b"s3backer: store fault 601\n"))


def refused_words():
    """Words that are refused have status 2, and no key in their message."""
    with Store() as store:
        good = words_of(store, "64k")
        for change, text in [
            (lambda words: [word for word in words if not word.startswith("--accessKey")], None),
            (lambda words: [word.replace("http:", "https:") for word in words], None),
            (lambda words: [word.replace(store.url, "http://:80/") for word in words], None),
            (lambda words: [*words[:-1], "a/b"], None),
            (lambda words: [*words, "another"], None),
        ]:
            done = subprocess.run(change(good), input=OPEN, capture_output=True, timeout=60)
            expect("words that are refused", (done.returncode, done.stdout, KEY.encode() in done.stderr), (2, b"", False))
            expect("their line", done.stderr.startswith(b"s3backer: usage: "), True)
        expect("nothing was asked", store.requests, [])


def by_moto():
    """moto's server as the store, read by boto3: names, bodies and the sizes of block 0."""
    folder = sys.path.pop(0)
    try:
        import boto3
        from moto.server import ThreadedMotoServer
    except ImportError:
        return print("skipped: moto")
    finally:
        sys.path.insert(0, folder)
    logging.getLogger("werkzeug").disabled = True
    server = ThreadedMotoServer(ip_address="127.0.0.1", port=0, verbose=False)
    server.start()

    class Moto:
        bucket, url = "disk", "http://{}:{}/".format(*server.get_host_and_port())

    client = boto3.client("s3", endpoint_url=Moto.url[:-1], region_name="us-east-1", aws_access_key_id=ID, aws_secret_access_key=KEY)
    client.create_bucket(Bucket=Moto.bucket)
    disk, choice = bytearray(1 << 18), random.Random(13)
    disk[:BLOCK] = choice.randbytes(BLOCK)
    connection = opened(Moto, "256k")
    expect("a write of block 0", connection.write(0, bytes(disk[:BLOCK])), 0)
    fill(connection, disk, choice, 12)
    expect("the end", connection.end(), (0, b""))
    names = [item["Key"] for item in client.list_objects(Bucket=Moto.bucket).get("Contents", [])]
    found = {name: client.get_object(Bucket=Moto.bucket, Key=name) for name in names}
    expect("moto's objects", {name: answer["Body"].read() for name, answer in found.items()} == objects_of(disk), True)
    expect("the sizes of block 0", found["00000000"]["Metadata"], {"s3backer-filesize": "262144", "s3backer-blocksize": "4096"})
    connection = opened(Moto, "256k")
    expect("the next run over moto", connection.read(0, len(disk)) == (0, bytes(disk)), True)
    expect("the end", connection.end(), (0, b""))
    server.stop()


signal.alarm(400)
with concurrent.futures.ThreadPoolExecutor() as pool:
    slow = [pool.submit(work) for work in (hanging, unreachable)]
    several_runs()
    for kind, every in [(503, 5), ("cut", 4), ("close", 5), (0.3, 9)]:
        failing(kind, every)
    not_tried_again()
    old_versions()
    refused_words()
    by_moto()
    for work in slow:
        work.result()
sys.exit(ends("buckets"))
