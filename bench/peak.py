#!/usr/bin/env python3
"""Prints how much memory `socorro replay` holds at its peak: for nothing, for a submission of 16 MiB whose bulk is one dump,
for one whose bulk is a JSON part of short keys, for one whose bulk is a text that isn't UTF-8, of which each byte is kept as
three, and for a body of 16 MiB that no route takes.
usage: bench/peak.py     (the program must be built: `cd crates/socorro && rt run`)"""
import os
import re
import subprocess
import sys
import tempfile
import time

TOP = os.path.dirname(os.path.dirname(os.path.abspath(__file__)))
PROGRAM = os.path.join(TOP, "crates", "socorro", "out", "socorro")
LARGEST = 16 * 1024 * 1024


def part(name, more):
    return ('--b\r\nContent-Disposition: form-data; name="%s"%s\r\n\r\n' % (name, more)).encode()


def message(path, body):
    head = "POST %s HTTP/1.1\r\nHost: h\r\nContent-Type: multipart/form-data; boundary=b\r\nContent-Length: %d\r\n\r\n"
    return (head % (path, len(body))).encode() + body


def of_one_dump():
    front = part("ProductName", "") + b"Firefox\r\n" + part("upload_file_minidump", '; filename="d"')
    back = b"\r\n--b--\r\n"
    return message("/submit", front + b"x" * (LARGEST - len(front) - len(back)) + back)


def of_other_bytes():
    front = part("ProductName", "") + b"Firefox\r\n" + part("Version", "")
    back = b"\r\n--b--\r\n"
    return message("/submit", front + b"\xff" * (LARGEST - len(front) - len(back)) + back)


def of_short_keys():
    front = part("extra", "\r\nContent-Type: application/json")
    back = b"\r\n--b--\r\n"
    members = (LARGEST - len(front) - len(back) - 2) // 11
    json = b"{" + b",".join(b'"%06x":0' % number for number in range(members)) + b"}"
    return message("/submit", front + json + back)


def peak(body):
    """The kilobytes that a run has held at its peak once it has answered, and the first line of its answer."""
    with tempfile.TemporaryDirectory() as folder:
        run = subprocess.Popen([PROGRAM, "replay"], cwd=folder, stdin=subprocess.PIPE, stdout=subprocess.PIPE)
        answer = b""
        if body:
            run.stdin.write(body)
            run.stdin.flush()
            answer = run.stdout.readline()
        else:
            time.sleep(1)
        with open("/proc/%d/status" % run.pid) as status:
            most = int(re.search(r"VmHWM:\s+(\d+)", status.read())[1])
        run.communicate()
        return most, answer.decode().strip()


def main():
    if not os.access(PROGRAM, os.X_OK):
        sys.exit("build %s first: cd crates/socorro && rt run" % PROGRAM)
    least, _ = peak(b"")
    print("nothing: %d KB" % least)
    for name, body in [
        ("a dump of 16 MiB", of_one_dump()),
        ("a JSON part of short keys", of_short_keys()),
        ("a text that isn't UTF-8", of_other_bytes()),
        ("16 MiB on no route", message("/nothing", b"x" * LARGEST)),
    ]:
        most, answer = peak(body)
        print("%s: %d KB more, %.2f times the body (%s)" % (name, most - least, (most - least) * 1024 / len(body), answer))


main()
