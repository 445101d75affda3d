#!/usr/bin/env python3
"""The page examples/viewer/index.html in a real browser: the recorded conversations are loaded, and rows counted, opened and searched; what a
hostile packet says runs nothing; 200,000 packets are loaded.

viewer.py                    chromium, headless; where it is not installed nothing is tested, and it says so
viewer.py --picture FILE     a picture of the page with a recorded conversation
The packets are those of the second tracker and decoder of tests/reference_decoder. The last line is 'N passed, N failed'."""
import html
import json
import re
import shutil
import subprocess
import sys
import tempfile
from pathlib import Path

TOP = Path(__file__).resolve().parents[2]
sys.path[:0] = [str(TOP / "tests/probe"), str(TOP / "tests")]
from conversations import FOLDER, pieces_of  # noqa: E402
from lossy import front  # noqa: E402
from recorder import mark, recorded  # noqa: E402

PAGE = TOP / "examples/viewer/index.html"
BAD = ("error", "unsolicited_error", "refused", "lost", "no_resync")
# what runs in the page after its own script: it acts as a user does, and leaves what it saw in the document
ACTS = """
const wait = () => new Promise((done) => setTimeout(done, 150));
const until = async (is) => { for (let at = 0; at < 60 && !is(); at++) await wait(); return is(); };
const by = (id) => document.getElementById(id);
const load = (content) => { by("paste").value = content; by("paste").dispatchEvent(new Event("input")); };
const press = (key) => by("list").dispatchEvent(new KeyboardEvent("keydown", { key, bubbles: true }));
const set = async (id, value) => { const it = by(id); if (it.type === "checkbox") { it.checked = value; it.dispatchEvent(new Event("change")); } else { it.value = value; it.dispatchEvent(new Event("input")); } await wait(); };
const count = () => by("count").textContent;
const labels = () => [...document.querySelectorAll("#list .row")].map((it) => it.getAttribute("aria-label"));
window.ran = 0;
(async () => {
  const seen = {};
  try { await (async () => { %s })(); } catch (error) { seen.error = String(error); }
  seen.ran = window.ran;
  const left = document.createElement("pre");
  left.id = "seen";
  left.textContent = JSON.stringify(seen);
  document.body.append(left);
})();
"""


def page_with(folder, acts, data=""):
    """A copy of the page that is given data and acts."""
    embedded = data.replace("<", "\\u003c")
    script = f'<script type="application/json" id="data">{embedded}</script>\n<script>{ACTS % acts}</script>\n</body>'
    path = Path(folder) / "page.html"
    path.write_text(PAGE.read_text().replace("</body>", script))
    return path


def chromium(path, *words):
    command = ["chromium", "--headless=new", "--no-sandbox", "--disable-gpu", "--hide-scrollbars", f"--user-data-dir={path.parent}/profile", *words, path.as_uri()]
    return subprocess.run(command, capture_output=True, text=True, timeout=120).stdout


def seen(acts, data=""):
    """What acts left in the document."""
    with tempfile.TemporaryDirectory() as folder:
        dom = chromium(page_with(folder, acts, data), "--virtual-time-budget=60000", "--dump-dom")
    found = re.search(r'<pre id="seen">(.*?)</pre>', dom, re.S)
    return json.loads(html.unescape(found[1])) if found else {"error": "the page left nothing"}


def objects(path):
    return recorded(pieces_of(path))[0]


def lines(packets):
    return "\n".join(json.dumps(it) for it in packets) + "\n"


RESULTS = []


def hold(what, got, want):
    RESULTS.append(got == want)
    if got != want:
        print(f"viewer: {what}: {got!r}, and not {want!r}")


def conversation(path):
    packets = objects(path)
    exchanges = len({it["exchange"] for it in packets})
    queries = [it for it in packets if "select" in str(it.get("query", "")).lower()]
    answer = seen(
        """
        load(JSON.parse(by("data").textContent));
        seen.all = count();
        await set("fold", false);
        seen.heights = Math.round(parseFloat(by("height").style.height) / 26);
        press("Home"); press("Enter");
        seen.fields = by("detail").querySelectorAll("tr").length;
        seen.shown = by("detail").textContent;
        press("ArrowDown");
        seen.selected = document.querySelector('[aria-selected="true"]')?.id ?? null;
        await set("search", "select");
        seen.found = count();
        await set("search", "");
        await set("bad", true);
        seen.bad = count();
        """,
        json.dumps(lines(packets)),
    )
    name = path.name.split(".")[0]
    hold(f"{name}: the count", answer.get("all"), f"{len(packets)} of {len(packets)} packets, {exchanges} exchanges")
    hold(f"{name}: rows of packets", answer.get("heights"), len(packets))
    head = {"side", "sequence", "exchange", "kind", "size", "payload"}
    fields = 3 + sum(len(it) if isinstance(it, list) else 1 for field, it in packets[0].items() if field not in head)
    hold(f"{name}: the fields of the first packet", answer.get("fields"), fields)
    if packets[0]["kind"] == "handshake":
        hold(f"{name}: its version", packets[0]["server_version"] in answer.get("shown", ""), True)
    hold(f"{name}: the next is chosen", answer.get("selected"), "row-1" if len(packets) > 1 else "row-0")
    bad = [it for it in packets if it["kind"] in BAD]
    hold(f"{name}: errors", answer.get("bad", "").split(" of ")[0], str(len(bad)))
    hold(f"{name}: a search", int(answer.get("found", "0").split(" of ")[0]) >= len(queries), True)
    hold(f"{name}: no fault", answer.get("error"), None)


def hostile():
    """Markup in each text that a packet has."""
    evil = "<img src=x onerror=\"window.ran=1\"><script>window.ran=1</script>"
    head = {"side": "client", "sequence": 0, "exchange": 1, "size": 3, "payload": "3c3e00"}
    packets = [
        {**head, "kind": "command", "command": "COM_QUERY", "query": evil},
        {**head, "side": "server", "kind": "error", "error": 1064, "sql_state": evil, "message": evil},
        {**head, "side": "server", "kind": "column", "name": evil, "schema": evil},
        {**head, "side": "server", "kind": evil},
        {**head, "side": evil, "kind": "ok", evil: evil, "info": evil},
    ]
    answer = seen(
        """
        load(JSON.parse(by("data").textContent));
        await set("fold", false);
        for (let at = 0; at < 5; at++) { press(at ? "ArrowDown" : "Home"); press("Enter"); await wait(); }
        await set("search", "<img");
        seen.found = count();
        seen.images = document.images.length;
        seen.labels = labels().join();
        """,
        json.dumps(lines(packets)),
    )
    hold("hostile: nothing runs", answer.get("ran"), 0)
    hold("hostile: no markup", answer.get("images"), 0)
    hold("hostile: the text is shown", evil in answer.get("labels", ""), True)
    hold("hostile: no fault", answer.get("error"), None)


def lost():
    """A recording of which a segment is missing: what is said of it stands among the packets, and what follows is shown."""
    lines_of = front(FOLDER / "mtr_all_110.txt.xz")
    at = [at for at, (side, _) in enumerate(lines_of) if side == ">"][3]
    side, line = lines_of[at]
    packets = recorded(lines_of[:at] + [(side, mark(len(line)))] + lines_of[at + 1 :])[0]
    answer = seen(
        """
        load(JSON.parse(by("data").textContent));
        await set("fold", false);
        seen.count = count();
        seen.labels = labels().join("\\n");
        await set("bad", true);
        seen.bad = count();
        press("Home"); press("Enter");
        seen.shown = by("detail").textContent;
        """,
        json.dumps(lines(packets)),
    )
    kinds = [it["kind"] for it in packets]
    exchanges = len({it["exchange"] for it in packets})
    hold("lost: the kinds", kinds.count("lost") == 1 and kinds.count("resync") == 2, True)
    hold("lost: the count", answer.get("count"), f"{len(packets)} of {len(packets)} packets, {exchanges} exchanges")
    hold("lost: it is named", f"lost: {len(line)} bytes are missing in the capture" in answer.get("labels", ""), True)
    passed = [f"taken up again, {it['skipped_bytes']} bytes passed over" in answer.get("labels", "") for it in packets if it["kind"] == "resync"]
    hold("lost: where it is taken up", passed, [True, True])
    bad = [it for it in packets if it["kind"] in BAD]
    hold("lost: it stands out", answer.get("bad", "").split(" of ")[0], str(len(bad)))
    hold("lost: its fields", f"missing{len(line)}" in answer.get("shown", ""), True)
    hold("lost: no number", "undefined" in answer.get("labels", "undefined") + answer.get("shown", "undefined"), False)
    hold("lost: no fault", answer.get("error"), None)


def many():
    answer = seen(
        """
        const one = (at, it) => JSON.stringify({ exchange: 1 + (at >> 1), sequence: at & 1, size: 20, payload: "00".repeat(20), ...it });
        const all = [];
        for (let at = 0; at < 200000; at += 2) {
          all.push(one(at, { side: "client", kind: "command", command: "COM_QUERY", query: "select " + at }));
          all.push(one(at + 1, { side: "server", kind: "ok", affected_rows: 0, last_insert_id: null, status_flags: 2, warnings: 0, info: null }));
        }
        load(all.join("\\n"));
        seen.clock = Number(document.documentElement.dataset.clock);
        await set("fold", false);
        seen.rows = Math.round(parseFloat(by("height").style.height) / 26);
        seen.made = document.querySelectorAll("#list .row").length;
        by("list").scrollTop = 26 * 150000;
        by("list").dispatchEvent(new Event("scroll"));
        seen.scrolled = await until(() => labels().some((it) => it.startsWith("packet 150010,")));
        """
    )
    hold("200,000 packets", answer.get("rows"), 200000)
    hold("200,000 packets: rows are made as they are seen", answer.get("made", 1000) < 200, True)
    hold("200,000 packets: a scroll", answer.get("scrolled"), True)
    hold("200,000 packets in less than two seconds", answer.get("clock", 9999) < 2000, True)
    print(f"viewer: 200,000 packets in {answer.get('clock')} ms")


def picture(path):
    data = json.dumps(lines(objects(FOLDER / "mtr_all_110.txt.xz")))
    acts = """load(JSON.parse(by("data").textContent)); press("Home"); for (let at = 0; at < 3; at++) press("ArrowDown"); press("Enter"); press("ArrowDown"); press("Enter"); setTimeout(() => by("seen").remove(), 500);"""
    with tempfile.TemporaryDirectory() as folder:
        chromium(page_with(folder, acts, data), "--window-size=1200,700", "--virtual-time-budget=5000", f"--screenshot={path}")


def main(*words):
    if words[:1] == ("--picture",):
        picture(words[1])
        return 0
    if not shutil.which("chromium"):
        print("viewer: not tested, there is no chromium")
        print("0 passed, 0 failed")
        return 0
    for path in sorted(FOLDER.glob("*.xz")):
        conversation(path)
    hostile()
    lost()
    many()
    print(f"{sum(RESULTS)} passed, {len(RESULTS) - sum(RESULTS)} failed")
    return 0 if all(RESULTS) else 1


if __name__ == "__main__":
    sys.exit(main(*sys.argv[1:]))
