#!/usr/bin/env python3
"""Compares the requests of sb_s3link with those of botocore. Usage: requests.py [SEED]

The program of crates/test_requests draws calls from the seed, and prints each with the request that the link sends.
botocore's client makes the same calls: method, host, path, query and body have to be the same, and so has each header
that both have. The signature is that which botocore gives the request with the headers that the link signs. Without SEED
the seed comes from the clock. Where botocore isn't installed, the script prints that it is skipped.
"""
import datetime, hashlib, os, subprocess, sys, time

try:
    import botocore.session
    from botocore.auth import S3SigV4Auth
    from botocore.awsrequest import AWSRequest
    from botocore.config import Config
    from botocore.credentials import Credentials
    from botocore.exceptions import HTTPClientError
except ImportError:
    print("skipped: requests")
    sys.exit(0)

from urllib.parse import parse_qsl, urlsplit

CRATE = os.path.join(os.path.dirname(os.path.dirname(os.path.abspath(__file__))), "crates", "test_requests")
COUNT = 400
# What a prefix may have: 20 to 7e, but for the bytes that a listing would escape.
PREFIX = set(map(chr, range(0x20, 0x7F))) - set("<>&\"'")
CALLS = {"get", "verify", "put", "delete", "head", "list", "list on"}
ORDER = ["authorization", "connection", "content-length", "content-md5", "if-none-match", "x-amz-content-sha256",
         "x-amz-date", "x-amz-meta-s3backer-blocksize", "x-amz-meta-s3backer-filesize"]


class Stop(HTTPClientError):
    """Ends a call of botocore once its request is made."""


def cases_of(printed):
    """The cases that are printed, each a dictionary."""
    for paragraph in printed.split("\n\n")[:-1]:
        yield dict(line.split(": ", 1) for line in paragraph.split("\n"))


def request_in(sent):
    """Method, target, headers in order, and body of the bytes of a request."""
    head, body = bytes.fromhex(sent).split(b"\r\n\r\n", 1)
    first, *lines = head.decode().split("\r\n")
    method, target, version = first.split(" ")
    if version != "HTTP/1.1":
        raise ValueError(version)
    return method, target, [tuple(line.split(": ", 1)) for line in lines], body.decode()


def call_of(client, case):
    """Makes a call of botocore's client."""
    place, name = {"Bucket": case["bucket"]}, {"Key": case["name"]}
    digest = hashlib.md5(case["body"].encode())
    if case["call"] == "get":
        client.get_object(**place, **name)
    elif case["call"] == "verify":
        client.get_object(**place, **name, IfNoneMatch=f'"{digest.hexdigest()}"')
    elif case["call"] == "put":
        sizes = {"s3backer-filesize": case["size"], "s3backer-blocksize": case["block size"]} if "size" in case else {}
        client.put_object(**place, **name, Body=case["body"].encode(), Metadata=sizes)
    elif case["call"] == "delete":
        client.delete_object(**place, **name)
    elif case["call"] == "head":
        client.head_object(**place, **name)
    elif case["call"] == "list":
        client.list_objects(**place, Prefix=case["prefix"], MaxKeys=1000)
    else:
        client.list_objects(**place, Prefix=case["prefix"], Marker=case["name"], MaxKeys=1000)


def made_by_botocore(session, case):
    """The request that botocore's client would send."""
    made = []

    def keep(request, **_):
        made.append(request)
        raise Stop(error="made")

    port = "" if case["port"] == "80" else ":" + case["port"]
    config = Config(s3={"addressing_style": case["style"]}, signature_version="s3v4", retries={"total_max_attempts": 1},
                    parameter_validation=False)
    client = session.create_client("s3", region_name=case["region"], endpoint_url=f"http://{case['host']}{port}",
                                   aws_access_key_id=case["id"], aws_secret_access_key=case["secret"], config=config)
    client.meta.events.register("before-send.s3", keep)
    try:
        call_of(client, case)
    except Stop:
        pass
    return made[0]


def signed_by_botocore(case, method, target, headers, body):
    """The authorization that botocore gives a request with these headers."""
    moment = datetime.datetime(1970, 1, 1) + datetime.timedelta(seconds=int(case["moment"]))
    wanted = {name: value for name, value in headers if name in ("host", "content-md5") or name.startswith("x-amz-meta-")}
    request = AWSRequest(method=method, url=f"http://{wanted['host']}{target}", headers=wanted, data=body.encode())
    request.context["timestamp"] = moment.strftime("%Y%m%dT%H%M%SZ")
    auth = S3SigV4Auth(Credentials(case["id"], case["secret"]), "s3", case["region"])
    auth._modify_request_before_signing(request)
    signature = auth.signature(auth.string_to_sign(request, auth.canonical_request(request)), request)
    auth._inject_signature_to_request(request, signature)
    return {name.lower(): value for name, value in request.headers.items()}


def differences(session, case):
    """What differs between the request that is sent and botocore's, as found and wanted."""
    method, target, headers, body = request_in(case["sent"])
    names = [name for name, _ in headers]
    made = made_by_botocore(session, case)
    path, _, query = target.partition("?")
    url = urlsplit(made.url)
    asked = {(name, value) for name, value in parse_qsl(url.query, keep_blank_values=True) if name != "encoding-type"}
    found, other = dict(headers), {name.lower(): value for name, value in made.headers.items()}
    plain = {name: value.decode() if isinstance(value, bytes) else value for name, value in other.items()}
    signed = signed_by_botocore(case, method, target, headers, body)
    yield "method", method, made.method
    yield "host", found["host"], url.netloc
    # botocore leaves the slash behind a bucket's name out
    yield "path", path, url.path.rstrip("/") + "/" if case["call"].startswith("list") else url.path
    yield "query", set(parse_qsl(query, keep_blank_values=True)), asked
    yield "order of the query", query, "&".join(sorted(query.split("&")))
    yield "body", body.encode(), made.body.read() if hasattr(made.body, "read") else made.body or b""
    yield "order of the headers", names, ["host"] + [name for name in ORDER if name in names]
    for name in ("authorization", "x-amz-date", "x-amz-content-sha256"):
        yield name, found[name], signed[name]
    for name in ("content-md5", "if-none-match", "x-amz-meta-s3backer-filesize", "x-amz-meta-s3backer-blocksize"):
        if name != "content-md5" or name in plain:
            yield name, found.get(name), plain.get(name)
    if case["call"] == "put":
        yield "content-length", found["content-length"], str(len(body.encode()))


def main():
    seed = sys.argv[1] if len(sys.argv) > 1 else str(time.time_ns())
    run = ["rt", "run", "--", seed, str(COUNT)]
    cases = list(cases_of(subprocess.run(run, cwd=CRATE, stdout=subprocess.PIPE, text=True, check=True).stdout))
    session = botocore.session.get_session()
    failed = 0
    for number, case in enumerate(cases, 1):
        for word, found, wanted in differences(session, case):
            if found != wanted:
                failed += 1
                print(f"request {number}, {case['call']}, {word}: found {found!r}, wanted {wanted!r}")
    names = set("".join(case["name"] + case["prefix"] for case in cases))
    if len(cases) != COUNT or not PREFIX <= names or CALLS != {case["call"] for case in cases}:
        failed += 1
        print(f"requests: {len(cases)} calls, or not every byte of a prefix, or not every kind")
    print(f"requests: {COUNT} requests of seed {seed}, {f'{failed} failed' if failed else 'ok'}")
    return 1 if failed else 0


sys.exit(main())
