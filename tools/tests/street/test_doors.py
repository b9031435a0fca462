"""Who gets in to the panel, and who doesn't: other sites, other users, connections that ask nothing."""

import http.client
import re
import resource
import socket
import subprocess
import sys
import time
import urllib.parse

import pytest
from streettools.cabinet.messages import reply_of

from .conftest import PROGRAM, SECONDS, TOP, VERSION
from .test_agents import get

aiohttp = pytest.importorskip("aiohttp")

POLICY = "Content-Security-Policy"


class Panel:
    """A panel as browsers and others call it."""

    def __init__(self, running, pattern=r"panel at (http://\S+)"):
        self.running, self.address = running, urllib.parse.urlsplit(running.told(pattern)[1])
        self.host, self.port, self.query = self.address.netloc, self.address.port, self.address.query

    def ask(self, path, method="GET", to="127.0.0.1", **headers):
        """Returns status and headers of an answer. A header of the value None is left out."""
        connection = http.client.HTTPConnection(to, self.port, timeout=SECONDS)
        connection.putrequest(method, path, skip_host=True)
        for name, value in ({"Host": self.host} | headers).items():
            if value is not None:
                connection.putheader(name.replace("_", "-"), value)
        connection.endheaders()
        answer = connection.getresponse()
        answer.read()
        connection.close()
        return answer.status, answer.headers

    def socket(self, query=None, **headers):
        """Returns the status with which a web socket is answered: 101 if it is let in."""
        key = {"Upgrade": "websocket", "Connection": "Upgrade", "Sec_WebSocket_Version": "13",
               "Sec_WebSocket_Key": "MDEyMzQ1Njc4OWFiY2RlZg=="}  # fmt: skip
        with socket.create_connection(("127.0.0.1", self.port), SECONDS) as made:
            lines = [f"GET /feed?{self.query if query is None else query} HTTP/1.1"]
            given = {"Host": self.host, "Origin": f"http://{self.host}"} | key | headers
            lines += [f"{name.replace('_', '-')}: {value}" for name, value in given.items() if value is not None]
            made.sendall("\r\n".join([*lines, "", ""]).encode())
            return int(made.recv(65_536).split(b" ")[1])


@pytest.fixture
def panel(street):
    """Starts a street with a panel."""

    def start(*words):
        return Panel(street("--ports", 0, "--panel", 0, *words))

    return start


def test_another_host_name_gets_nothing(panel):
    here = panel()
    page = f"/?{here.query}"
    assert here.ask(page)[0] == here.ask(page, Host=f"localhost:{here.port}")[0] == 200
    for host in ("other.example", "127.0.0.1.other.example", "127.0.0.1@other.example", "", None, "127.0.0.1:1:2"):
        assert here.ask(page, Host=host)[0] in (400, 403), host


def test_a_page_and_its_socket_must_bring_the_token(panel):
    here = panel()
    assert re.fullmatch(r"token=[\w-]{32}", here.query)
    for query in ("", "?token=", "?token=x", f"?{here.query}x", f"?{here.query[:-1]}", "?token=%FF%00"):
        assert here.ask(f"/{query}")[0] == here.ask(f"/index.html{query}")[0] == 403
        assert here.socket(query[1:]) == 403
    assert here.socket() == 101
    assert here.ask("/panel.js")[0] == 200
    again = panel()
    assert again.query != here.query


def test_only_the_panels_own_origin_gets_a_socket(panel):
    here = panel()
    wrong = ["http://other.example", "null", "", None, f"http://127.0.0.1:{here.port + 1}", f"x//{here.host}",
             f"file://{here.host}", f"http://{here.host}/", f"http://{here.host}.other.example", here.host]  # fmt: skip
    assert [here.socket(Origin=it) for it in wrong] == [403] * len(wrong)
    assert here.socket(Origin=f"http://{here.host}") == 101


def test_every_answer_forbids_to_be_framed(panel):
    here = panel()
    answers = [here.ask(f"/?{here.query}"), here.ask("/panel.css"), here.ask("/"), here.ask("/feed"),
               here.ask(f"/none?{here.query}"), here.ask(f"/..%2fweb.py?{here.query}"),
               here.ask(f"/?{here.query}", "POST"), here.ask("/", Host="other.example")]  # fmt: skip
    assert [status for status, _ in answers] == [200, 200, 403, 403, 404, 404, 405, 403]
    for _, headers in answers:
        assert "frame-ancestors 'none'" in headers[POLICY] and "form-action 'none'" in headers[POLICY]
        assert headers["X-Frame-Options"] == "DENY" and headers["X-Content-Type-Options"] == "nosniff"


def test_connections_that_ask_nothing_dont_keep_others_out(panel):
    here = panel()
    soft, hard = resource.getrlimit(resource.RLIMIT_NOFILE)
    resource.setrlimit(resource.RLIMIT_NOFILE, (min(hard, 4096), hard))
    made = [socket.create_connection(("127.0.0.1", here.port), SECONDS) for _ in range(1100)]
    try:
        for it in made:
            try:
                it.sendall(b"GET / HTTP/1.1\r\nHost: ")
            except OSError:
                continue
        assert here.ask(f"/?{here.query}")[0] == 200
        assert here.socket() == 101
        assert reply_of(here.running.ask(get(5, VERSION))).number == 5
    finally:
        for it in made:
            it.close()
        resource.setrlimit(resource.RLIMIT_NOFILE, (soft, hard))
    assert here.running.end() == 0
    assert len(here.running.said) <= 3


def test_a_connection_that_asks_nothing_ends_within_seconds(panel):
    here = panel()
    with socket.create_connection(("127.0.0.1", here.port), SECONDS) as made:
        made.sendall(b"GET / HTTP/1.1\r\n")
        begun = time.monotonic()
        assert made.recv(1) == b""
        assert 5 < time.monotonic() - begun < 30


def test_the_panel_of_an_address_of_version_6_is_printed_with_brackets(panel):
    here = panel("--bind", "::1")
    assert here.host == f"[::1]:{here.port}"
    assert here.ask(f"/?{here.query}", to="::1")[0] == 200


def test_the_panel_at_all_addresses_is_called_as_it_is_allowed_to(panel):
    here = panel("--bind", "0.0.0.0", "--allow-host", "box.example", "--allow-host", "127.0.0.2")
    page = f"/?{here.query}"
    assert here.address.hostname == "box.example"
    assert here.ask(page, Host="box.example")[0] == here.ask(page, Host=f"127.0.0.2:{here.port}")[0] == 200
    assert here.ask(page, to="127.0.0.2", Host="127.0.0.3")[0] == 403


@pytest.mark.parametrize(
    "words, line",
    [
        (["--bind", "0.0.0.0"], "--panel with --bind 0.0.0.0 needs --allow-host NAME: how browsers call this machine"),
        (["--bind", "::"], "--panel with --bind :: needs --allow-host NAME: how browsers call this machine"),
        (["--allow-host", "box"], "--allow-host goes with --panel and --bind"),
    ],
)
def test_words_about_hosts_that_dont_go_together_are_refused(words, line):
    command = [sys.executable, "-B", TOP / "tools/streettools", "street", "--program", PROGRAM, "--panel", "0", *words]
    ran = subprocess.run(command, capture_output=True, text=True, timeout=SECONDS)
    assert (ran.returncode, ran.stderr) == (2, f"street: {line}\n")


def test_another_user_of_the_machine_gets_neither_page_nor_socket(panel):
    """As the user nobody, who can reach the port, but doesn't know the token."""
    here = panel()
    asks = f"""
import http.client
for path in ("/", "/feed", "/?token=", "/index.html"):
    made = http.client.HTTPConnection("127.0.0.1", {here.port}, timeout=20)
    made.request("GET", path, headers={{"Origin": "http://127.0.0.1:{here.port}"}})
    print(made.getresponse().status)
"""
    words = ["setpriv", "--reuid=65534", "--regid=65534", "--clear-groups"]
    try:
        ran = subprocess.run([*words, "/usr/bin/python3", "-c", asks], capture_output=True, text=True, cwd="/")
    except FileNotFoundError:
        pytest.skip("no setpriv here")
    if "setresuid" in ran.stderr or "setgroups" in ran.stderr:
        pytest.skip("another user can't be had here")
    assert ran.stdout.split() == ["403"] * 4, ran.stderr


def test_too_many_open_files_are_said_once():
    """With 40 files for the street, and 200 connections at once."""
    words = ["-c", 'ulimit -n 40; exec "$@"', "sh", sys.executable, "-B", TOP / "tools/streettools", "street",
             "--program", PROGRAM, "--ports", "0", "--panel", "0"]  # fmt: skip
    made = subprocess.Popen(["/bin/sh", *words], stderr=subprocess.PIPE, text=True, cwd=TOP)
    try:
        lines = [made.stderr.readline() for _ in range(2)]
        port = int(re.search(r"panel at http://127.0.0.1:(\d+)", "".join(lines))[1])
        many = [socket.create_connection(("127.0.0.1", port), SECONDS) for _ in range(200)]
        time.sleep(3)
        for it in many:
            it.close()
        made.send_signal(2)
        _, said = made.communicate(timeout=SECONDS)
    finally:
        made.kill()
    assert said == "street: too many files are open: the panel takes no connection until some are closed\n"
    assert made.returncode == 0
