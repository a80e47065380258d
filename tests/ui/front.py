"""A proxy before the program. It answers `/` and `/api/Stack/` itself where the program has no such route, and it can have
users log in."""
import base64
import http.client
import http.server
import json
import threading

HEADERS = [
    ("Content-Type", "text/html; charset=utf-8"),
    ("Cache-Control", "no-store"),
    ("Content-Security-Policy", "default-src 'none'; connect-src 'self'; img-src 'self' data:; script-src 'unsafe-inline'; "
     "style-src 'unsafe-inline'; base-uri 'none'; form-action 'none'; frame-ancestors 'none'"),
    ("Referrer-Policy", "no-referrer"),
    ("X-Content-Type-Options", "nosniff"),
]
STACK = "/api/Stack/?crash_id="
NO_ROUTE = (404, b"no route\n")


def start(port, page, stacks, granted, login=None):
    """Serves over the program at a port. `stacks` has the recorded replies by id, for those whose token is `granted`. `login`
    is a user, a password, and the token that both stand for; without it nobody has to log in. Gives its address."""

    class Handler(http.server.BaseHTTPRequestHandler):
        protocol_version = "HTTP/1.1"

        def do_GET(self):
            status, headers, body = self.ask("GET", self.path, None)
            if (status, body) != NO_ROUTE:
                self.answer(status, headers, body)
            elif self.path == "/":
                with open(page, "rb") as file:
                    self.answer(200, HEADERS, file.read())
            elif self.path.startswith(STACK):
                self.answer_stack(self.path.removeprefix(STACK))
            else:
                self.answer(status, headers, body)

        def do_POST(self):
            self.answer(*self.ask("POST", self.path, self.rfile.read(int(self.headers["Content-Length"]))))

        def answer_stack(self, crash):
            status, _, body = self.ask("GET", "/api/RawCrash/?crash_id=" + crash, None)
            if status != 200:
                self.answer(status, [("Content-Type", "text/plain")], body)
            elif crash not in stacks:
                self.answer(404, [("Content-Type", "text/plain")], b"no dump\n")
            else:
                stack = json.loads(json.dumps(stacks[crash]))
                if self.headers.get("Auth-Token") not in granted:
                    stack["address"] = None
                    if stack["refused"]:
                        stack["refused"] = {"number": None, "place": None}
                self.answer(200, [("Content-Type", "application/json")], json.dumps(stack, separators=(",", ":")).encode())

        def ask(self, method, path, body):
            wanted = {name: value for name, value in self.headers.items() if name.lower() in ("auth-token", "content-type")}
            if login and "Auth-Token" not in wanted:
                if self.headers.get("Authorization") != basic(*login[:2]):
                    return 401, [("WWW-Authenticate", 'Basic realm="crashes"'), ("Content-Type", "text/plain")], b"log in\n"
                wanted["Auth-Token"] = login[2]
            link = http.client.HTTPConnection("127.0.0.1", port, timeout=60)
            link.request(method, path, body, dict(wanted, Connection="close"))
            reply = link.getresponse()
            return reply.status, [("Content-Type", reply.getheader("Content-Type"))], reply.read()

        def answer(self, status, headers, body):
            self.send_response(status)
            for name, value in headers + [("Content-Length", str(len(body)))]:
                self.send_header(name, value)
            self.end_headers()
            self.wfile.write(body)

        def log_message(self, *words):
            pass

    def basic(user, password):
        return "Basic " + base64.b64encode(("%s:%s" % (user, password)).encode()).decode()

    server = http.server.ThreadingHTTPServer(("127.0.0.1", 0), Handler)
    server.handle_error = lambda *_: None  # a browser breaks off what it no longer wants
    threading.Thread(target=server.serve_forever, daemon=True).start()
    return "http://127.0.0.1:%d" % server.server_port
