"""An S3 store of the checks' own, on loopback: objects in memory, signatures checked, faults and old versions by a script.

It knows the five requests that a disk makes: GET, PUT, DELETE and HEAD of an object, and the listing of a bucket. A request
whose signature isn't the one that it computes itself, or whose body has another hash than its head says, is answered 403.
"""
import hashlib, hmac, http.server, threading, time, urllib.parse, xml.sax.saxutils

ID, KEY, REGION = "AKIDEXAMPLE", "wJalrXUtnFEMI/K7MDENG+bPxRfiCYEXAMPLEKEY", "us-east-1"


def hex_of(body):
    return hashlib.sha256(body).hexdigest()


def mac(key, text):
    return hmac.new(key, text.encode(), hashlib.sha256).digest()


def signature_of(method, target, headers, signed, scope):
    """The signature of a request by the rules of AWS, version 4."""
    path, _, query = target.partition("?")
    values = "".join(f"{name}:{headers[name]}\n" for name in signed)
    query = "&".join(sorted(query.split("&")))
    asked = "\n".join([method, path, query, values, ";".join(signed), headers["x-amz-content-sha256"]])
    text = "\n".join(["AWS4-HMAC-SHA256", headers["x-amz-date"], scope, hex_of(asked.encode())])
    key = ("AWS4" + KEY).encode()
    for word in scope.split("/"):
        key = mac(key, word)
    return mac(key, text).hex()


class Request(http.server.BaseHTTPRequestHandler):
    """One request, on a connection of its own."""

    protocol_version = "HTTP/1.1"

    def log_message(self, *words):
        pass

    def headers_of(self):
        return {name.lower(): value for name, value in self.headers.items()}

    def why_refused(self, headers, body):
        """What is wrong with a request's signature or hashes, if anything is."""
        begin = "AWS4-HMAC-SHA256 Credential="
        authorization = headers.get("authorization", "")
        if not authorization.startswith(begin):
            return "no signature"
        credential, signed, signature = [word.strip().split("=", 1)[-1] for word in authorization[len(begin) - 11:].split(",")]
        name, scope = credential.split("/", 1)
        signed = signed.split(";")
        if name != ID or scope != f"{headers['x-amz-date'][:8]}/{REGION}/s3/aws4_request":
            return "another id or scope"
        if not {"host", "x-amz-content-sha256", "x-amz-date"} <= set(signed) or signed != sorted(signed):
            return "what is signed"
        if {name for name in headers if name.startswith("x-amz-")} - set(signed):
            return "a header that isn't signed"
        if headers["host"] != self.server.name or headers["x-amz-content-sha256"] != hex_of(body):
            return "the host or the hash"
        if signature != signature_of(self.command, self.path, headers, signed, scope):
            return "the signature"
        return None

    def answer(self, status, body=b"", **headers):
        """Answers, and ends the connection; a cut answer has only half of its body."""
        self.send_response(status)
        for name, value in headers.items():
            self.send_header(name.replace("_", "-"), value)
        if status not in (204, 304):
            self.send_header("content-length", str(len(body)))
        self.send_header("connection", "close")
        self.end_headers()
        if self.command != "HEAD":
            self.wfile.write(body[:len(body) // 2] if self.action == "cut" else body)
        self.close_connection = True

    def serve(self):
        store = self.server.store
        headers = self.headers_of()
        body = self.rfile.read(int(headers.get("content-length", "0")))
        path, _, query = self.path.partition("?")
        bucket, _, name = urllib.parse.unquote(path)[1:].partition("/")
        self.action = store.begins(self.command, name)
        if self.action == "close":
            self.close_connection = True
            return
        if isinstance(self.action, float):
            time.sleep(self.action)
        if isinstance(self.action, int):
            self.answer(self.action, b"<Error/>")
            return
        refused = self.why_refused(headers, body)
        if refused or bucket != store.bucket:
            store.refused.append((self.command, self.path, refused))
            self.answer(403, b"<Error><Code>SignatureDoesNotMatch</Code></Error>")
        elif self.command == "PUT":
            store.put(name, body, {name: value for name, value in headers.items() if name.startswith("x-amz-meta-")})
            self.answer(200)
        elif self.command == "DELETE":
            store.put(name, None, {})
            self.answer(204)
        elif name == "" and self.command == "GET":
            self.answer(200, store.listing(urllib.parse.parse_qs(query, keep_blank_values=True)))
        else:
            self.show(store.shown(name), headers)

    def show(self, version, headers):
        """Answers a GET or a HEAD with a version of an object."""
        _, body, meta = version
        if body is None:
            self.answer(404, b"<Error><Code>NoSuchKey</Code></Error>")
        elif headers.get("if-none-match") == '"' + hashlib.md5(body).hexdigest() + '"':
            self.answer(304)
        else:
            self.answer(200, body, **{name.replace("-", "_"): value for name, value in meta.items()})

    do_GET = do_PUT = do_DELETE = do_HEAD = serve


class Server(http.server.ThreadingHTTPServer):
    daemon_threads = True
    request_queue_size = 64


class Store:
    """A bucket, served until it is closed.

    `script` is asked before each request for its number, from 1 on, its method and its name, and says what happens: None,
    a status, "close" without an answer, "cut" in the middle of the body, or a pause in seconds as a float. `age` is for how
    many seconds after a put or delete the version before it is shown.
    """

    def __init__(self, bucket="disk", script=None, age=0.0):
        self.bucket, self.script, self.age = bucket, script, age
        self.versions, self.requests, self.refused = {}, [], []
        self.lock = threading.Lock()
        self.server = Server(("127.0.0.1", 0), Request)
        self.server.store = self
        self.port = self.server.server_address[1]
        self.server.name = f"127.0.0.1:{self.port}"
        self.thread = threading.Thread(target=self.server.serve_forever, kwargs={"poll_interval": 0.05}, daemon=True)

    def __enter__(self):
        self.thread.start()
        return self

    def __exit__(self, *fault):
        self.server.shutdown()
        self.server.server_close()

    @property
    def url(self):
        return f"http://{self.server.name}/"

    def begins(self, method, name):
        with self.lock:
            self.requests.append((method, name))
            number = len(self.requests)
        return self.script(number, method, name) if self.script else None

    def put(self, name, body, meta):
        with self.lock:
            self.versions.setdefault(name, [(0.0, None, {})]).append((time.monotonic(), body, meta))

    def shown(self, name):
        """The version that a GET is shown: the newest that is old enough, or the first."""
        with self.lock:
            versions = self.versions.get(name, [(0.0, None, {})])
            settled = [version for version in versions if version[0] <= time.monotonic() - self.age]
            return settled[-1] if settled else versions[0]

    @property
    def objects(self):
        """The newest objects, each its bytes."""
        with self.lock:
            return {name: versions[-1][1] for name, versions in self.versions.items() if versions[-1][1] is not None}

    def meta(self, name):
        with self.lock:
            return self.versions[name][-1][2]

    def listing(self, query):
        prefix, marker = (query.get(word, [""])[0] for word in ("prefix", "marker"))
        names = sorted(name for name in self.objects if name.startswith(prefix) and name > marker)
        most = int(query.get("max-keys", ["1000"])[0])
        keys = "".join(f"<Contents><Key>{xml.sax.saxutils.escape(name)}</Key></Contents>" for name in names[:most])
        more = "true" if len(names) > most else "false"
        return f"<ListBucketResult><IsTruncated>{more}</IsTruncated>{keys}</ListBucketResult>".encode()
