"""Counts the same lines once more, by queries: what each figure of the page has to be."""
import collections
import json
import math
import sqlite3
import struct

# The messages of each master in their order. `runs` numbers the master's requests: a repeat has the number of the request that it repeats.
VIEWS = """
CREATE TABLE heard (n INTEGER PRIMARY KEY, one TEXT);
CREATE VIEW said AS SELECT n, one ->> 'kind' kind, one ->> 'master' master, one ->> 'address' address, one ->> 'command' command,
    one ->> 'sending' sending, one ->> 'answers' answers, one ->> 'response_code' code, one -> 'communication_faults' faults
    FROM heard WHERE one ->> 'type' = 'message';
CREATE VIEW after AS SELECT *, lag(n) OVER line last_n, lag(kind) OVER line last_kind, lag(faults) OVER line last_faults,
    lag(code) OVER line last_code
    FROM said WINDOW line AS (PARTITION BY master ORDER BY n);
CREATE VIEW marked AS SELECT *, kind = 'request' AND sending = 1 begins FROM after;
CREATE TABLE numbered AS SELECT *, sum(begins) OVER (PARTITION BY master ORDER BY n) run FROM marked;
CREATE TABLE runs AS SELECT master, run, min(n) FILTER (WHERE kind = 'request') n, command, address,
    count(*) FILTER (WHERE kind = 'request') sendings,
    count(*) FILTER (WHERE kind = 'reply' AND answers IS NOT NULL AND faults = 'null') answered
    FROM numbered GROUP BY master, run;
"""
SIMPLE = {
    "messages": "SELECT count(*) FROM said", "masters": "SELECT count(DISTINCT master) FROM said",
    "misses": "SELECT count(*) FROM heard WHERE one ->> 'type' = 'miss'"}
KEYED = {
    "miss-{}": "SELECT one ->> 'reason', count(*) FROM heard WHERE one ->> 'type' = 'miss' GROUP BY 1",
    "fault-{}": "SELECT value, count(*) FROM said, json_each(faults) WHERE faults <> 'null' GROUP BY 1",
    "command-requests-{}": "SELECT command, count(*) FROM runs GROUP BY 1",
    "command-sendings-{}": "SELECT command, sum(sendings) FROM runs GROUP BY 1",
    "command-at-first-{}": "SELECT command, sum(answered > 0 AND sendings = 1) FROM runs GROUP BY 1",
    "command-unanswered-{}": "SELECT command, sum(answered = 0) FROM runs GROUP BY 1",
    "command-faults-{}": "SELECT command, count(*) FROM said WHERE faults <> 'null' GROUP BY 1",
    "code-{}": "SELECT command || '-' || code, count(*) FROM said WHERE code IS NOT NULL GROUP BY 1"}
CAUSES = """SELECT CASE WHEN last_kind = 'reply' AND last_faults <> 'null' THEN 'the reply reported communication faults'
    WHEN last_kind = 'reply' AND last_code = 32 THEN 'the device was busy'
    WHEN EXISTS (SELECT 1 FROM heard WHERE heard.n BETWEEN last_n AND numbered.n AND one ->> 'type' = 'miss') THEN
    'a damaged message was heard' ELSE 'no reply was heard' END, count(*) FROM numbered WHERE kind = 'request' AND NOT begins GROUP BY 1"""
TRENDS = ((1, "primary variable", "primary_variable", "primary_variable_unit"), (3, "primary variable", "primary_variable",
          "primary_variable_unit"), (3, "loop current", "loop_current", 39), (2, "loop current", "loop_current", 39),
          (2, "percent of range", "percent_of_range", 57))
VARIABLES = {244: "percent of range", 245: "loop current", 246: "primary variable"}


def owners_of(objects):
    """Returns the device of each polling address, by the identities that were heard there."""
    owners = {}
    for one in objects:
        if one.get("kind") == "reply" and one["command"] == 0 and one["response_code"] == 0 and one["address"][0] == "@":
            data = bytes.fromhex(one["data"])
            device = data[9:12] if len(data) >= 12 else b""
            owners[one["address"]] = (bytes([data[1] & 0x3F, data[2]]) + device).hex().upper()
    return owners


def text(number):
    """Returns a count as the page writes it."""
    return format(number, ",")


def percentage(part, whole):
    """Returns a share as the page writes it."""
    if not whole:
        return "–"
    tenths = round(1000 * part / whole)
    if 0 < part < whole:
        tenths = min(max(tenths, 1), 999)
    return (f"{tenths // 10}" if tenths % 10 == 0 else f"{tenths // 10}.{tenths % 10}") + " %"


def database(lines):
    """Returns a database with the lines and the views."""
    base = sqlite3.connect(":memory:")
    create, fill = VIEWS.split("CREATE VIEW said", 1)
    base.executescript(create)
    base.executemany("INSERT INTO heard VALUES (?, ?)", enumerate(lines))
    base.executescript("CREATE VIEW said" + fill)
    return base


def counted_by_queries(base):
    """Returns the figures of all messages and of the commands."""
    figures = {name: text(base.execute(query).fetchone()[0]) for name, query in SIMPLE.items()}
    for name, query in KEYED.items():
        figures |= {name.format(key): text(count) for key, count in base.execute(query)}
    figures |= {f"cause-{cause}": text(count) for cause, count in base.execute(CAUSES)}
    good, whole = base.execute("SELECT sum(answered > 0 AND sendings = 1), count(*) FROM runs WHERE n IS NOT NULL").fetchone()
    figures["at-first"] = percentage(good or 0, whole)
    return figures


def of_devices(objects, base):
    """Returns the figures of the devices and of the pairs."""
    owners = owners_of(objects)
    where = {one["address"]: owners.get(one["address"], one["address"]) for one in objects if one["type"] == "message"}
    said = [(where[one["address"]], one) for one in objects if one["type"] == "message"]
    known = {(station, one["master"]) for station, one in said if one.get("answers") is not None}
    broadcasts = [one for _, one in said if one["address"] == "all" and one.get("answers") is not None]
    identified = {(bytes([int(one["data"][2:4], 16) & 0x3F]).hex() + one["data"][4:6] + one["data"][18:24]).upper(): one
                  for one in broadcasts}
    pairs = collections.Counter((station, one["master"], one["kind"]) for station, one in said)
    for device, one in identified.items():
        pairs["all", one["master"], "reply"] -= 1
        pairs[device, one["master"], "reply"] += 1
        known.add((device, one["master"]))
    unanswered = collections.Counter(where[address] for address, in base.execute("SELECT address FROM runs WHERE answered = 0"))
    figures = {"no-pair": text(sum(count for (station, master, _), count in pairs.items() if (station, master) not in known))}
    for station, master in known:
        figures[f"pair-requests-{master}-{station}"] = text(pairs[station, master, "request"])
        figures[f"pair-replies-{master}-{station}"] = text(pairs[station, master, "reply"])
    devices = {station for station, _ in known if station != "all"}
    figures["devices"] = text(len(devices))
    for device in devices:
        mine = [one for station, one in said if station == device and one["kind"] == "reply"]
        restarts = collections.Counter(one["master"] for one in mine if "cold start" in (one["device_status"] or ()))
        figures |= {
            f"requests-{device}": text(sum(pairs[device, master, "request"] for master in ("primary", "secondary"))),
            f"replies-{device}": text(sum(pairs[device, master, "reply"] for master in ("primary", "secondary"))),
            f"unanswered-{device}": text(unanswered[device]), f"restarts-{device}": text(max(restarts.values(), default=0)),
            f"faults-{device}": text(sum(len(one["communication_faults"] or ()) for one in mine))}
    return figures


def values_of(objects):
    """Returns the finite values of each device, quantity and unit, in order."""
    values = collections.defaultdict(list)

    def keep(one, quantity, unit, digits):
        """Keeps a value if it is finite."""
        value, = struct.unpack("!f", int(digits, 16).to_bytes(4, "big"))
        if math.isfinite(value):
            values[one["address"], quantity, unit].append(value)

    for one in objects:
        if one.get("kind") != "reply" or one["response_code"] != 0:
            continue
        for command, quantity, field, unit in TRENDS:
            if one["command"] == command and field in one["fields"]:
                keep(one, quantity, one["fields"][unit] if isinstance(unit, str) else unit, one["fields"][field])
        for variable in one["fields"].get("device_variables", ()):
            if variable["code"] in VARIABLES:
                keep(one, VARIABLES[variable["code"]], variable["unit"], variable["value"])
    return values


def of_trends(objects):
    """Returns the figures of the trends."""
    figures = {}
    for (address, quantity, unit), values in values_of(objects).items():
        name = f'{address}-{quantity.replace(" ", "-")}-{unit}'
        figures[f"values-{name}"] = text(len(values))
        figures |= {f"{words}-{name}": format(value, ",.6g") for words, value in (
            ("lowest", min(values)), ("highest", max(values)), ("last", values[-1]))}
    return figures


def of_writes(lines, base):
    """Returns how each field of each configuration write ended, by the place of its request."""
    figures = {}
    query = "SELECT n, sendings, master, run FROM runs WHERE command IN (6, 17, 18, 19, 22)"
    for first, sendings, master, run in base.execute(query).fetchall():
        one = json.loads(lines[first])
        replies = base.execute("SELECT n FROM numbered WHERE master = ? AND run = ? AND answers IS NOT NULL ORDER BY n DESC", (master, run))
        last = replies.fetchone()
        reply = json.loads(lines[last[0]]) if last else None
        ending = "no" if reply is None else "communication faults" if reply["response_code"] is None else "yes"
        if reply and reply["response_code"]:
            ending = f'refused: {reply["response_code"]}, {reply["response"]}'
        ending += f", sent {sendings} times" * (sendings > 1)
        figures |= {f'write-{one["start"]}-{field}': ending for field in one["fields"] or ("data",)}
    return figures


def figures_of(lines):
    """Returns the text of each figure that a page of these lines has to have. The span is not among them."""
    objects, base = [json.loads(line) for line in lines], database(lines)
    return {**counted_by_queries(base), **of_devices(objects, base), **of_trends(objects), **of_writes(lines, base)}
