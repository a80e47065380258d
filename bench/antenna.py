"""A collector as Antenna's users run it, for bench/serve.sh: Falcon on gunicorn, multipart read by Falcon, throttle rules in
Python, annotations and dumps to files.

Environment: ANTENNA_ROOT (folder), ANTENNA_SYNC = none | file (default) | dir. `file` syncs each
file that is written; `dir` also syncs each folder, which is what makes a new name outlive a stop.
"""

import datetime
import gzip
import hashlib
import json
import os
import random
import re
import uuid

import falcon
from falcon.media.multipart import MultipartFormHandler

ROOT = os.environ["ANTENNA_ROOT"]
SYNC = os.environ.get("ANTENNA_SYNC", "file")
LIMIT = 20 * 1024 * 1024
ACCEPT, DEFER, REJECT, CONTINUE = 0, 1, 2, 3


def always(raw):
    return True


def comments(raw):
    return bool(raw.get("Comments"))


def contains(key, words):
    find = re.compile(words).search
    return lambda raw: bool(find(raw.get(key, "")))


def equals(key, value):
    return lambda raw: raw.get(key) == value


def present(key):
    return lambda raw: key in raw


# (name, condition, percent, result): about the number and the cost of Mozilla's own rules
RULES = [
    ("has_hangid_and_browser", lambda r: "HangID" in r and r.get("ProcessType", "browser")
     == "browser", 100, REJECT),
    ("infobar_is_true", lambda r: r.get("SubmittedFromInfobar") == "true"
     and r.get("ProductName") == "Firefox" and "52." <= r.get("Version", "") < "60."
     and r.get("BuildID", "") < "20171226", 100, REJECT),
    ("b2g", lambda r: r.get("ProductName", "").lower() == "b2g", 100, ACCEPT),
    ("has_comments", comments, 100, ACCEPT),
    ("has_email", present("Email"), 100, ACCEPT),
    ("is_nightly", lambda r: r.get("ReleaseChannel") in ("aurora", "beta", "esr"), 100, ACCEPT),
    ("is_alpha_beta_esr", contains("Version", r"(a|b)\d+|esr$"), 100, ACCEPT),
    ("is_thunderbird", lambda r: r.get("ProductName") == "SeaMonkey", 100, ACCEPT),
    ("has_phc", present("PHCKind"), 100, ACCEPT),
    ("has_gpu", contains("GraphicsCriticalError", r"crash"), 100, ACCEPT),
    ("is_firefox_desktop", equals("ProductName", "Nothing"), 10, ACCEPT),
    ("accept_everything", always, 100, ACCEPT),
]


def throttle(raw):
    for name, condition, percent, result in RULES:
        if condition(raw) and random.random() * 100 < percent:
            return name, result
    return "NO_MATCH", REJECT


def new_crash_id(now, result):
    return str(uuid.uuid4())[:-7] + str(result) + now.strftime("%y%m%d")


def write(folder, name, data):
    os.makedirs(folder, exist_ok=True)
    with open(os.path.join(folder, name), "wb") as f:
        f.write(data)
        if SYNC != "none":
            f.flush()
            os.fsync(f.fileno())
    if SYNC == "dir":
        fd = os.open(folder, os.O_RDONLY)
        os.fsync(fd)
        os.close(fd)


def save(crash_id, raw, dumps, now):
    base = os.path.join(ROOT, now.strftime("%Y%m%d"))
    for name, data in dumps.items():
        write(os.path.join(base, name), crash_id, data)
    write(os.path.join(base, "dump_names"), crash_id + ".json",
          json.dumps(sorted(dumps)).encode())
    write(os.path.join(base, "raw_crash"), crash_id + ".json",
          json.dumps(raw, sort_keys=True).encode())


class Malformed(Exception):
    pass


def extract(req):
    """annotations, dumps, notes"""
    if not (req.content_type or "").startswith("multipart/form-data"):
        raise Malformed("wrong_content_type")
    raw, dumps = {}, {}
    if req.get_header("Content-Encoding") == "gzip":
        data = gzip.decompress(req.bounded_stream.read())
        import io
        form = HANDLER.deserialize(io.BytesIO(data), req.content_type, len(data))
    else:
        form = req.get_media()
    for part in form:
        kind = part.content_type or ""
        if part.name == "extra" and kind.startswith("application/json"):
            raw.update({k: v if isinstance(v, str) else json.dumps(v)
                        for k, v in json.loads(part.get_data()).items()})
        elif part.filename is not None:
            dumps[re.sub(r"[^A-Za-z0-9_.-]", "_", part.name)] = part.get_data()
        else:
            raw[part.name] = part.get_data().decode("utf-8", "replace").replace("\0", "")
    if not raw:
        raise Malformed("no_annotations")
    return raw, dumps


class Submit:
    def on_post(self, req, resp):
        now = datetime.datetime.now(datetime.timezone.utc)
        resp.content_type = "text/plain"
        try:
            raw, dumps = extract(req)
        except (Malformed, ValueError, falcon.HTTPError) as e:
            resp.status = falcon.HTTP_400
            resp.text = "Discarded=malformed_%s" % e
            return
        raw.pop("uuid", None)
        rule, result = throttle(raw)
        if result == REJECT:
            resp.text = "Discarded=rule_" + rule
            return
        crash_id = new_crash_id(now, result)
        raw["uuid"] = crash_id
        raw["submitted_timestamp"] = now.isoformat()
        raw["metadata"] = {
            "throttle_rule": rule, "payload_size": req.content_length or 0,
            "dump_checksums": {k: hashlib.sha256(v).hexdigest() for k, v in dumps.items()},
            "user_agent": req.user_agent or "", "collector_notes": []}
        save(crash_id, raw, dumps, now)
        resp.text = "CrashID=bp-%s\n" % crash_id


HANDLER = MultipartFormHandler()
HANDLER.parse_options.max_body_part_buffer_size = LIMIT
HANDLER.parse_options.max_body_part_count = 1024
HANDLER.parse_options.max_body_part_headers_size = 1024

app = falcon.App()
app.req_options.media_handlers[falcon.MEDIA_MULTIPART] = HANDLER
app.add_route("/submit", Submit())
