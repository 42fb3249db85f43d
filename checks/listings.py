#!/usr/bin/env python3
"""Reads the listings that moto's S3 server writes. Usage: listings.py [SEED]

Objects with names drawn from the seed are put by boto3. The program of crates/test_listings reads the pages of their listing,
each asked for behind the last name of the page before: its names have to be those that were put, in byte order. Without
SEED the seed comes from the clock. Where moto or boto3 isn't installed, the script prints that it is skipped.
"""
import logging, os, random, subprocess, sys, time, urllib.parse, urllib.request

# moto imports a library whose name a script of this folder has
sys.path.pop(0)
try:
    import boto3
    from moto.server import ThreadedMotoServer
except ImportError:
    print("skipped: listings")
    sys.exit(0)

CRATE = os.path.join(os.path.dirname(os.path.dirname(os.path.abspath(__file__))), "crates", "test_listings")
BUCKET, PREFIX, PAGE = "disk", "a b+%/", 1000
# What a name may have: more than a prefix may, as listings escape these bytes.
BYTES = [chr(byte) for byte in range(0x20, 0x7F)]
failed = 0


def expect(name, found, wanted):
    global failed
    if found != wanted:
        failed += 1
        print(f"{name}: found {str(found)[:300]}, wanted {str(wanted)[:300]}")


def names_drawn(choice):
    """Names of 1 to 100 bytes behind the prefix: enough for several pages, and each byte among them."""
    drawn = {PREFIX + "".join(choice.choices(BYTES, k=choice.randrange(1, 100))) for _ in range(2 * PAGE)}
    return sorted(drawn | {PREFIX + "x" + byte for byte in BYTES} | {PREFIX + entity for entity in ("&lt;", "&amp;amp;", "</Key>")})


def page_read(address, marker):
    """What the program reads of the page behind a marker: its names, and the last line."""
    query = urllib.parse.urlencode({"prefix": PREFIX, "marker": marker, "max-keys": PAGE})
    with urllib.request.urlopen(f"{address}/{BUCKET}?{query}", timeout=60) as answer:
        body = answer.read()
    printed = subprocess.run(["rt", "run"], cwd=CRATE, input=body, capture_output=True, check=True).stdout
    *names, ending = printed.decode().splitlines()
    return [bytes.fromhex(name).decode() for name in names], ending


def main():
    seed = sys.argv[1] if len(sys.argv) > 1 else str(time.time_ns())
    names = names_drawn(random.Random(seed))
    logging.getLogger("werkzeug").disabled = True
    server = ThreadedMotoServer(ip_address="127.0.0.1", port=0, verbose=False)
    server.start()
    try:
        address = "http://{}:{}".format(*server.get_host_and_port())
        client = boto3.client("s3", endpoint_url=address, region_name="us-east-1", aws_access_key_id="id", aws_secret_access_key="key")
        client.create_bucket(Bucket=BUCKET)
        client.put_object(Bucket=BUCKET, Key="before the prefix", Body=b"x")
        for name in names:
            client.put_object(Bucket=BUCKET, Key=name, Body=b"x")
        read, ending = page_read(address, "")
        pages = [read]
        while ending == "more" and len(pages) <= len(names):
            read, ending = page_read(address, pages[-1][-1])
            pages.append(read)
        expect("the end of the listing", ending, "end")
        expect("names on each page", [len(page) for page in pages], [PAGE] * (len(names) // PAGE) + [len(names) % PAGE] * (len(names) % PAGE > 0))
        expect("the names", [name for page in pages for name in page], names)
    finally:
        server.stop()
    print(f"listings: {len(names)} names of seed {seed}, {f'{failed} failed' if failed else 'ok'}")
    return 1 if failed else 0


sys.exit(main())
