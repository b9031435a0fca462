"""Who gets in to the editor, and what hostile requests get: one line, and the editor answers on."""

import asyncio
import http.client
import urllib.parse

import pytest

from ..conftest import SECONDS
from .test_keeping import EDIT, VIEW, WRONG, changed

aiohttp = pytest.importorskip("aiohttp")


class Here:
    """An editor as browsers and others call it."""

    def __init__(self, running):
        self.address = urllib.parse.urlsplit(running.address())
        self.host, self.query = self.address.netloc, self.address.query

    def ask(self, path, method="GET", body=None, **headers):
        """Returns status, headers and text of an answer."""
        connection = http.client.HTTPConnection("127.0.0.1", self.address.port, timeout=SECONDS)
        connection.request(method, path, body, {"Host": self.host} | headers)
        answer = connection.getresponse()
        text = answer.read().decode()
        connection.close()
        return answer.status, answer.headers, text

    def opened(self, session, query=None, origin=None):
        """Opens the web socket of a page."""
        feed = f"http://{self.host}/feed?{self.query if query is None else query}"
        return session.ws_connect(feed, headers={"Origin": f"http://{self.host}" if origin is None else origin})


@pytest.fixture
def here(editor, sheet):
    """An editor of the sheet."""
    return Here(editor(sheet))


def test_a_page_and_an_export_need_the_token_and_this_hosts_name(here):
    assert here.ask(f"/?{here.query}")[0] == here.ask(f"/export/sheet?{here.query}")[0] == 200
    for path in ("/", "/index.html", "/export/sheet", "/export/sheet?token=x", f"/?{here.query}x"):
        status, _, text = here.ask(path)
        assert status == 403 and text.count("\n") == 1
    assert here.ask(f"/?{here.query}", Host="other.example")[0] == 403
    assert [here.ask(f"/{name}")[0] for name in ("editor.css", "editor.js", "rings.js", "d3.min.js")] == [200] * 4


def test_every_answer_forbids_to_be_framed_and_to_load_from_elsewhere(here):
    for path in (f"/?{here.query}", "/", "/editor.js", f"/none?{here.query}", f"/export/none?{here.query}"):
        _, headers, _ = here.ask(path)
        assert "frame-ancestors 'none'" in headers["Content-Security-Policy"]
        assert "default-src 'none'" in headers["Content-Security-Policy"]
        assert headers["X-Frame-Options"] == "DENY" and headers["Cache-Control"] == "no-store"


def test_only_the_editors_own_page_gets_a_socket(here):
    async def refused():
        found = []
        async with aiohttp.ClientSession() as session:
            for query, origin in (("", None), ("token=x", None), (None, "http://other.example"), (None, "null")):
                try:
                    async with here.opened(session, query, origin):
                        found.append(101)
                except aiohttp.WSServerHandshakeError as fault:
                    found.append(fault.status)
        return found

    assert asyncio.run(refused()) == [403] * 4


def test_bodies_and_strange_exports_are_refused_in_a_line(here):
    assert here.ask(f"/?{here.query}", "POST", b"x" * 5_000_000)[0] in (405, 413)
    for path in ("/export/none", "/export/utdf?pattern=0", "/export/utdf?pattern=x", "/export/utdf?pattern=49"):
        status, _, text = here.ask(f"{path}{'&' if '?' in path else '?'}{here.query}")
        assert status == 400 and text.count("\n") == 1 and len(text) < 120, path


def test_orders_that_are_not_well_formed_are_refused_in_a_line_and_the_editor_answers_on(here, sheet):
    before = sheet.read_text()

    async def told():
        lines = []
        async with aiohttp.ClientSession() as session:
            async with here.opened(session) as page:
                for text in [*WRONG, changed(EDIT, ["change", "intersection"], 99)]:
                    await page.send_str(text)
                    while "refused" not in (answer := await page.receive_json()):
                        pass
                    lines.append(answer["refused"])
                await page.send_bytes(b"\0")
                while "refused" not in (answer := await page.receive_json()):
                    pass
            async with here.opened(session) as page:
                await page.send_str("x" * 100_000)
                while (answer := await page.receive()).type is aiohttp.WSMsgType.TEXT:
                    pass
                lines.append(answer.type.name)
            async with here.opened(session) as page:
                await page.send_json(VIEW)
                while "facts" not in await page.receive_json():
                    pass
        return lines

    *lines, last = asyncio.run(asyncio.wait_for(told(), SECONDS))
    assert len(lines) == len(WRONG) + 1 and all(it and "\n" not in it for it in lines)
    assert last == "CLOSE"
    assert sheet.read_text() == before


def test_a_change_of_a_version_that_is_gone_is_told_that_it_is_behind(here):
    async def told():
        async with aiohttp.ClientSession() as session:
            async with here.opened(session) as one, here.opened(session) as other:
                await one.send_json(EDIT)
                while (state := (await other.receive_json()).get("state") or {"version": 1})["version"] == 1:
                    pass
                await other.send_json(EDIT)
                while "refused" not in (answer := await other.receive_json()):
                    pass
                return state, answer

    state, answer = asyncio.run(asyncio.wait_for(told(), SECONDS))
    assert state["undo"] == "Elm & Oak, pattern 1: offset 0 to 12 s" and state["pages"] == 2
    assert "another page has changed the plan" in answer["refused"] and answer["state"]["version"] == 2


def test_two_editors_of_a_sheet_a_missing_file_and_a_sheet_with_faults_are_refused_in_lines(editor, sheet, tmp_path):
    editor(sheet).address()
    second = editor(sheet)
    assert second.ended() == 2 and second.said == [f"plan: {sheet} is open in another editor"]
    missing = editor(tmp_path / "none.toml")
    assert missing.ended() == 1 and missing.said == [f"plan: {tmp_path / 'none.toml'}: No such file or directory"]
    (tmp_path / "odd.toml").write_text("cycle = 1\n")
    odd = editor(tmp_path / "odd.toml")
    assert odd.ended() == 2 and odd.said[0].startswith(f"plan: {tmp_path / 'odd.toml'}: ") and len(odd.said) <= 3
    scenario = editor(tmp_path / "street.json")
    assert scenario.ended() == 2 and "takes a timing sheet" in scenario.said[0]
