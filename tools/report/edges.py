"""Captures at the edge: what hart-report has to do with each."""
import json
from typing import NamedTuple

REQUEST = {
    "type": "message", "start": 2, "stop": 7, "kind": "request", "master": "primary", "address": "@0", "burst": False, "expansion": "",
    "command": 0, "command_name": "read unique identifier", "data": "", "fields": {}, "ignored": "", "problem": None, "sending": 1}
REPLY = {
    **{name: value for name, value in REQUEST.items() if name != "sending"}, "start": 9, "stop": 38, "kind": "reply", "status": "0000",
    "response_code": 0, "response": "success", "device_status": [], "communication_faults": None, "answers": 2}
MISS = {"type": "miss", "start": 2, "place": 2, "reason": "bad_check", "at": 6, "byte": "83", "fits": "82", "seems": None}


def lines(*objects):
    """Returns objects a line each."""
    return "".join(json.dumps(one, separators=(",", ":")) + "\n" for one in objects)


def without(one, name):
    """Returns an object without a member, as an older program may have written it."""
    return {key: value for key, value in one.items() if key != name}


class Edge(NamedTuple):
    """A capture: its words and its input, the status, what standard error has to say, and what the page has to say, None for no page."""

    name: str
    heard: str | bytes
    status: int = 0
    said: str = ""
    shown: str | None = None
    words: tuple = ()


WHOLE = lines(REQUEST, REPLY)
# Members that an older line may lack.
OLDER_LINES = ((REQUEST, ("start", "address", "fields", "problem", "sending")),
               (REPLY, ("status", "response_code", "communication_faults", "answers")), (MISS, ("start", "reason", "seems", "at")))
OLDER = "an older hart explain may have written it"
EDGES = (
    Edge("nothing", "", shown="The capture has no message; nothing was heard."),
    Edge("noise alone", lines(MISS, {**MISS, "start": 20, "reason": "burst"}), shown="The capture has no message; only noise was heard."),
    Edge("cut in the middle of a line", WHOLE + WHOLE[:50], said="line 3: it is cut in the middle", shown="Line 3 is cut in the middle"),
    Edge("cut in the first line", WHOLE[:50], said="line 1: it is cut in the middle", shown="The capture has no message"),
    Edge("without the last line end", WHOLE.rstrip(), shown="data-figure=\"messages\" class=\"large\">2<"),
    Edge("an empty line", WHOLE + "\n" + lines(MISS), shown="data-figure=\"misses\" class=\"large\">1<"),
    Edge("a bad line", WHOLE + "{\n" + WHOLE, 1, "line 3: it is not what hart explain --json writes"),
    Edge("hex text without --hex", "FF FF 02 80 00 00 82\n", 1, "line 1: it is not what hart explain --json writes"),
    Edge("bytes without --raw", b"\xff\xff\x02\x80\x00\x00\x82\n", 1, "line 1: it is not what hart explain --json writes"),
    Edge("a line without an end", b"7" * 70000, 1, "line 1: it has more than 65,536 bytes"),
    Edge("a number", "7\n", 1, "line 1: it is no object"),
    Edge("another type", lines(REQUEST, {"type": "note"}), 1, 'line 2: the member "type" is neither "message" nor "miss"'),
    *(Edge(f"no {name}", lines(REPLY, without(one, name)), 1, f'line 2: there is no member "{name}": {OLDER}')
      for one, names in OLDER_LINES for name in names),
    Edge("a list for a text", lines({**REQUEST, "kind": []}), 1, 'line 1: the member "kind" has a value of another type'),
    Edge("a bad miss long before the end", lines({**MISS, "reason": 7}) + WHOLE * 300, 1, 'line 1: the member "reason" has a value of'),
    Edge("a bad reply long before the end", lines({**REPLY, "response_code": 200}) + WHOLE * 300, 1, "line 1: a value is out of place"),
    Edge("another master", lines({**REQUEST, "master": "third"}), 1, 'line 1: the member "master" is neither'),
    Edge("a number as text", lines({**REQUEST, "start": "2"}), 1, 'line 1: the member "start" has a value of another type'),
    Edge("a float of three bytes", lines({**REPLY, "fields": {"primary_variable_unit": 32, "primary_variable": "41C800"}}), 1,
         'line 1: the field "primary_variable" is no float'),
    Edge("an address that is none", lines({**REQUEST, "address": "@x"}), 1, 'line 1: the member "address" is no address'),
    Edge("a place that is none", lines({**MISS, "start": -1}), 1, "line 1: a miss has no place"),
    Edge("both kinds of status", lines({**REPLY, "communication_faults": []}), 1, "line 1: a reply has either a response code and"),
    Edge("a tag that is a number", lines({**REPLY, "command": 13, "fields": {"tag": 7}}), 1,
         'line 1: the field "tag" has a value of another type'),
    Edge("two captures", WHOLE + WHOLE, shown="The places begin anew 1 time"),
    Edge("dates that are no times", lines({**REQUEST, "time": "spring"}, {**REPLY, "time": "12:00"}), shown="By place in the capture"),
    Edge("dates over midnight", lines({**REQUEST, "time": "23:59:58"}, {**REPLY, "time": "00:00:03.5"}),
         shown='data-figure="span" class="large">5 s<'),
    Edge("dates with days", lines({**REQUEST, "time": "2026-11-27T23:00"}, {**REPLY, "time": "2026-11-29T01:00:00Z"}),
         shown='data-figure="span" class="large">1 d 2 h<'),
    Edge("a lone surrogate", lines(REQUEST).replace("read unique", "\\ud800"), shown="data-figure=\"messages\" class=\"large\">1<"),
    Edge("hex text", "@12:00:01 FF FF 02 80 00 00 82\n/\n", shown="data-figure=\"messages\" class=\"large\">1<", words=("--hex",)),
    Edge("bytes", bytes.fromhex("FFFF0280000082"), shown="data-figure=\"messages\" class=\"large\">1<", words=("--raw",)),
    Edge("bad hex", "FF FF 02 80 00 00 82 RX", 1, "hart explain: bad hex at 21", "ended with a fault: bad hex at 21", ("--hex",)),
    Edge("both forms", "", 2, "not allowed with", words=("--hex", "--raw")),
    Edge("a folder", "", 1, "hart-report: /: Is a directory", words=("/",)),
    Edge("no such file", "", 1, "hart-report: /nowhere/capture.jsonl: No such file or directory", words=("/nowhere/capture.jsonl",)),
)
