#!/usr/bin/env python3
"""The commands of the program, a process for each, one after the other over stores in files: what each prints, says and ends with.
The worked texts are those of docs/PROFILE.md. `python3 tests/commands.py [PROGRAM]`; the last line says how many differ."""
import http.server
import os
import resource
import subprocess
import sys
import tempfile
import threading

TOP = os.path.dirname(os.path.dirname(os.path.realpath(__file__)))
STARTER = f"{TOP}/as2desk"
BUILT = f"{TOP}/crates/as2desk/out/as2desk"
PROGRAM = sys.argv[1] if len(sys.argv) > 1 else STARTER
AGREEMENTS = f"{TOP}/examples/agreements.toml"
POST = f"{TOP}/examples/plain-post.http"
NOTHING = "documents not sent: 0\ndocuments in retry: 0\nreceipts awaited: 0\ndocuments in error: 0\nreceipts to send: 0\n"
AWAITED = NOTHING.replace("awaited: 0", "awaited: 1")
differ = []


def run(store, words, at=1000, agreements=AGREEMENTS, read=b""):
    """Returns the exit status, standard output and standard error of a command."""
    whole = [PROGRAM, "--agreements", agreements, "--store", store, "--moment", str(at), *words]
    ran = subprocess.run(whole, input=read, capture_output=True, timeout=60)
    return ran.returncode, ran.stdout.decode(), ran.stderr.decode()


def same(what, found, wanted):
    """Prints whether a command did what it should."""
    print(f"{'ok   ' if found == wanted else 'WRONG'} {what}" + ("" if found == wanted else f"\n  wanted {wanted}\n  found  {found}"))
    if found != wanted:
        differ.append(what)


class Silent(http.server.BaseHTTPRequestHandler):
    """A partner that takes everything, and gives no receipt in its answer."""

    def do_POST(self):
        self.rfile.read(int(self.headers["Content-Length"]))
        self.send_response(200)
        self.send_header("Content-Length", "0")
        self.end_headers()

    def log_message(self, *_):
        pass


def posts(folder):
    """A post, its repeat, and another document under its identifier."""
    store, post = f"{folder}/posts.db", open(POST, "rb").read()
    first = run(store, ["post"], read=post)
    same("post", (first[0], first[1].startswith("HTTP/1.1 200 OK\r\n")), (0, True))
    same("post, a repeat", run(store, ["post"], read=post), first)
    other = run(store, ["post"], read=post[:-3] + b"abd")
    same("post, a conflict", (other[0], other[1].split("\r\n")[0]), (0, "HTTP/1.1 409 Conflict"))
    same("list in", run(store, ["list", "in"]), (0, "           1 S S Buyer -> Supplier <m1@x>\n", ""))
    same("list in, a state that isn't looked at", run(store, ["list", "in", "--state", "Q"])[0], 0)
    same("fetch", run(store, ["fetch", "1"]), (0, "abc", ""))
    same("fetch, another number", run(store, ["fetch", "2"]), (1, "", "refused: NoSuchNumber\n"))
    same("list out", run(store, ["list", "out"]), (0, "", ""))
    same("outstanding", run(store, ["outstanding"]), (0, NOTHING, ""))
    same("send, with nothing due", run(store, ["send"]), (0, "", ""))
    same("verify", run(store, ["verify"]), (0, "verified: 1 received, 0 sent, 0 findings\n", ""))
    same("verify in objects", run(store, ["verify", "--format", "json"]), (0, '{"findings":0,"received":1,"sent":0}\n', ""))
    same("list in objects", run(store, ["list", "in", "--format", "json"]),
         (0, '{"box":"in","from":"Buyer","identifier":"<m1@x>","number":1,"processed":true,"receipt":"sent","to":"Supplier"}\n', ""))
    evidence = ["evidence", "--received", "1", "--out", folder]
    same("evidence", run(store, evidence), (0, "received-1.content\nreceived-1.receipt\nreceived-1.txt\n", ""))
    with open(f"{folder}/received-1.content", "rb") as content:
        same("evidence, the content", content.read(), b"abc")
    same("evidence, once more", run(store, evidence), (1, "", "refused: CannotWrite\nhint: something of that name is there; nothing was made\n"))
    same("evidence, another number", run(store, ["evidence", "1", "--out", folder]), (1, "", "refused: NoSuchNumber\n"))


def tries(folder, agreements):
    """Documents that nobody takes, and whose receipt doesn't come."""
    store, paper = f"{folder}/tries.db", f"{folder}/paper"
    with open(paper, "wb") as it:
        it.write(b"abc")
    submit = ["submit", "--from", "Supplier", "--to"]
    same("submit", run(store, [*submit, "Buyer", paper]), (0, "1\n", ""))
    same("send, nobody listens", run(store, ["send"], agreements=agreements), (0, "document 1: try failed\n", "hint: document 1: connection refused\n"))
    same("list out, to be tried again", run(store, ["list", "out", "--state", "R"]), (0, "           1 R  1 - retry            Supplier -> Buyer\n", ""))
    same("submit, a receipt by a post", run(store, [*submit, "Depot", paper]), (0, "2\n", ""))
    same("send, taken", run(store, ["send"], agreements=agreements), (0, "document 2: delivered\n", ""))
    line = "           2 P  1 - awaiting         Supplier -> Depot\n"
    retry = AWAITED.replace("retry: 0", "retry: 1")
    due = "           1 R  1 - retry            Supplier -> Buyer\n"
    same("outstanding, before", run(store, ["outstanding"], at=1029), (0, retry, ""))
    same("outstanding, due", run(store, ["outstanding"], at=1060), (0, retry + due + line, ""))
    same("tick, before", run(store, ["tick"], at=1059), (0, "0\n", ""))
    same("tick", run(store, ["tick"], at=1060), (0, "1\n", ""))
    same("list out, overdue", run(store, ["list", "out", "--state", "E"]), (0, "           2 E  1 - overdue          Supplier -> Depot\n", ""))
    shown = "number: 2\nstate: E overdue\ntries: 1\ndue: -\nfrom: Supplier\nto: Depot\nidentifier: <out-2@station.example>\ncontent: 3 bytes\nreceipt: -\n"
    same("show", run(store, ["show", "2"]), (0, shown, ""))
    same("show, another number", run(store, ["show", "3"]), (1, "", "refused: NoSuchNumber\n"))
    same("resend, another number", run(store, ["resend", "3"]), (1, "", "refused: NoSuchNumber\n"))
    same("resend, one to be tried again", run(store, ["resend", "1"]), (1, "", "refused: NotDue\n"))
    same("resend", run(store, ["resend", "2"], at=2000), (0, "resent 2\n", ""))
    same("resend, twice", run(store, ["resend", "2"], at=2000), (1, "", "refused: NotDue\n"))
    same("list out, to be sent anew", run(store, ["list", "out", "--state", "P"]), (0, "           2 P  0 - new              Supplier -> Depot\n", ""))
    same("submit, an unknown partner", run(store, [*submit, "Nobody", paper]), (1, "", "refused: UnknownPartner\n"))
    same("submit, no file", run(store, [*submit, "Buyer", f"{folder}/absent"]), (1, "", f'refused: CannotRead\nhint: file "{folder}/absent"\n'))
    with open(paper, "wb") as it:
        it.write(bytes(1_048_577))
    same("submit, a larger one", run(store, [*submit, "Buyer", paper]), (1, "", "refused: TooLarge\n"))
    same("serve, no such address", run(store, ["serve", "--listen", "192.0.2.1:1", "--count", "1"]), (1, "", "refused: CannotListen\n"))


def accepts_none(folder):
    """With no more files than the program needs to listen, each accept fails: so do the connections end."""
    words = ["serve", "--listen", "127.0.0.1:0", "--count", "2"]
    # the shell that ./as2desk begins with wants more files than the program
    program = BUILT if PROGRAM == STARTER else PROGRAM
    whole = [program, "--agreements", AGREEMENTS, "--store", f"{folder}/few.db", *words]
    for most in range(4, 40):
        limit = lambda: resource.setrlimit(resource.RLIMIT_NOFILE, (most, most))
        ran = subprocess.Popen(whole, stdin=subprocess.DEVNULL, stdout=subprocess.PIPE, stderr=subprocess.PIPE, text=True, preexec_fn=limit)
        said = ran.stderr.readline()
        if said.startswith("listening: "):
            # no client is waited for: the file of a connection is wanted first
            found = ran.communicate(timeout=60)[0]
            same("serve, accepts that fail", (ran.returncode, found), (0, "connection: ReadFault\n" * 2))
            return
        ran.communicate(timeout=60)
    same("serve, accepts that fail", "it never listens", "it listens")


def main():
    partner = http.server.HTTPServer(("127.0.0.1", 0), Silent)
    threading.Thread(target=partner.serve_forever, daemon=True).start()
    with tempfile.TemporaryDirectory() as folder, open(AGREEMENTS, encoding="utf-8") as it:
        text = it.read()
        named = text.replace("127.0.0.1:8082", f"127.0.0.1:{partner.server_port}").replace("127.0.0.1:8081", "127.0.0.1:1")
        elsewhere = text.replace("http://127.0.0.1:8080/as2", "http://127.0.0.1:8080/receipts")
        for name, words in (("named", named), ("elsewhere", elsewhere)):
            with open(f"{folder}/{name}.toml", "w", encoding="utf-8") as to:
                to.write(words)
        posts(folder)
        tries(folder, f"{folder}/named.toml")
        accepts_none(folder)
        warning = "warning: return_url has not the path /as2; receipts sent there get 404\n"
        counted = (0, "organizations 1, partners 3\n", "")
        same("check", run(f"{folder}/no.db", ["check"]), counted)
        same("check, another path", run(f"{folder}/no.db", ["check"], agreements=f"{folder}/elsewhere.toml"), (*counted[:2], warning))
        same("show, the number 0", run(f"{folder}/no.db", ["show", "0"])[0], 2)
    print(f"{len(differ)} differ")
    return 1 if differ else 0


if __name__ == "__main__":
    sys.exit(main())
