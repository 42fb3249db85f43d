#!/usr/bin/env python3
"""Compares the signatures of sb_sign with those of botocore. Usage: signatures.py [SEED]

The program of crates/test_signatures draws requests from the seed, and prints each with its signature. botocore encodes and
signs the same requests, and what it gives has to be the same. Without SEED the seed comes from the clock. Where
botocore isn't installed, the script prints that it is skipped.
"""
import datetime, os, subprocess, sys, time

try:
    from botocore.auth import S3SigV4Auth
    from botocore.awsrequest import AWSRequest
    from botocore.credentials import Credentials
    from botocore.utils import percent_encode
except ImportError:
    print("skipped: signatures")
    sys.exit(0)

CRATE = os.path.join(os.path.dirname(os.path.dirname(os.path.abspath(__file__))), "crates", "test_signatures")
COUNT = 400
# What a prefix may have: 20 to 7e, but for the bytes that a listing would escape.
PREFIX = set(map(chr, range(0x20, 0x7F))) - set("<>&\"'")


def cases_of(printed):
    """The requests that are printed, each a dictionary. Its query and its headers are lists of pairs."""
    for paragraph in printed.split("\n\n")[:-1]:
        case = {"query": [], "header": []}
        for line in paragraph.split("\n"):
            word, value = line.split(": ", 1)
            if word in ("query", "header"):
                case[word].append(value.split("=", 1))
            else:
                case[word] = value
        yield case


def signed_by_botocore(case):
    """The encoded path and query, the date and the authorization that botocore gives a request."""
    moment = datetime.datetime(1970, 1, 1) + datetime.timedelta(seconds=int(case["moment"]))
    path = percent_encode(case["path"], safe="/~")
    query = "&".join(f"{name}={percent_encode(value)}" for name, value in case["query"])
    headers = dict(case["header"])
    url = f"http://{headers['host']}{path}?{query}"
    request = AWSRequest(method=case["method"], url=url, headers=headers, data=case["body"].encode())
    request.context["timestamp"] = moment.strftime("%Y%m%dT%H%M%SZ")
    auth = S3SigV4Auth(Credentials(case["id"], case["secret"]), "s3", case["region"])
    auth._modify_request_before_signing(request)
    signature = auth.signature(auth.string_to_sign(request, auth.canonical_request(request)), request)
    auth._inject_signature_to_request(request, signature)
    date, authorization = request.headers["X-Amz-Date"], request.headers["Authorization"]
    return {"encoded path": path, "encoded query": query, "date": date, "authorization": authorization}


def main():
    seed = sys.argv[1] if len(sys.argv) > 1 else str(time.time_ns())
    run = ["rt", "run", "--", seed, str(COUNT)]
    cases = list(cases_of(subprocess.run(run, cwd=CRATE, stdout=subprocess.PIPE, text=True, check=True).stdout))
    failed = 0
    for number, case in enumerate(cases, 1):
        for word, wanted in signed_by_botocore(case).items():
            if case[word] != wanted:
                failed += 1
                print(f"request {number}, {word}: found {case[word]!r}, wanted {wanted!r}")
    if len(cases) != COUNT or not PREFIX <= set("".join(case["path"] for case in cases)):
        failed += 1
        print(f"signatures: {len(cases)} requests, or not every byte of a prefix")
    print(f"signatures: {COUNT} requests of seed {seed}, {f'{failed} failed' if failed else 'ok'}")
    return 1 if failed else 0


sys.exit(main())
