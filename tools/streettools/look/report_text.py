"""The timing report as tables for a terminal."""

import pandas

from .endings import ENDINGS


NO_TRAFFIC = (
    "no traffic: no detector and no push button is called. Maximum recall gives each phase a green in each cycle; "
    "`arterial cosim queues` brings vehicles and pedestrians\n"
)
"""The line of a run without traffic."""


def table(rows):
    """Returns rows of a table as text, with a blank for a missing value."""
    if not rows:
        return ""
    frame = pandas.DataFrame(rows).astype(object)
    return frame.where(frame.notna(), "").to_string(index=False) + "\n"


def phase_rows(phases):
    """Returns the table of phases; each way in which some green ended has a column."""
    words = [word for word in ENDINGS if any(word in it["ended"] for it in phases)]
    for it in phases:
        row = {"phase": it["phase"], **({"name": it["name"]} if "name" in it else {}), "services": it["services"]}
        row |= {f"{name} green (s)": it["green"][name] for name in ("least", "mean", "greatest")}
        row |= {word: it["ended"].get(word, 0) for word in words}
        yield row | {"still green": it["still_green"], "walks": it["walks"]}


def walk_rows(phases):
    """Returns the table of waits for the walk."""
    for it in phases:
        if wait := it.get("walk_wait"):
            row = {"phase": it["phase"], "walks on a press": wait["served"]}
            row |= {f"{name} wait (s)": wait[name] for name in ("least", "mean", "greatest")}
            yield row | {"still waiting": wait["still_waiting"]}


def pattern_rows(patterns):
    """Returns the table of patterns."""
    for it in patterns:
        row = {"pattern": it["pattern"], "pickups": it["pickups"]}
        row |= {"local zeros": it["local_zeros"], "on offset": it["on_the_offset"]}
        cycles = it["cycles_to_the_offset"]
        row |= {f"{name} cycles to it": cycles[name] for name in ("least", "mean", "greatest")}
        yield row | {"bound": cycles["bound"], "beyond": it["beyond_the_bound"], "never": it["offset_not_reached"]}


def set_rows(refused):
    """Returns the table of Sets that were refused."""
    for it in refused:
        number = f" of download {it['download']}" if "download" in it else ""
        asked = f"{it['object']} = {it['value']}{number}"
        times = {"times": it["times"], "first (s)": it["first"], "last (s)": it["last"]}
        yield {"refused Set": asked, "error": it["error"], **times}


def load_rows(loads):
    """Returns the table of downloads."""
    for it in loads:
        refused = f"refused by rule {it.get('rule')} in row {it.get('row')}"
        end = f"in force as version {it['version']}" if "version" in it else refused
        yield {"download": it["download"], "seconds": it["seconds"], "end": end}


def message_parts(value):
    """Returns what the report says of a cabinet's replies, orders, refused Sets and downloads."""
    replies, orders = value["replies"].items(), value["orders"].items()
    said = [f"{way}: {n.get('answered', 0)} answered, {n.get('silent', 0)} silent" for way, n in replies]
    yield "replies to " + "; ".join(said) + "\n" if said else ""
    yield "orders: " + ", ".join(f"{word} {count}" for word, count in orders) + "\n" if orders else ""
    lines = (f"request {it['number']}, phase {it['phase']}: {it['effect']}\n" for it in value["requests"])
    yield "".join(lines)
    yield table(list(set_rows(value["refused_sets"])))
    yield table(list(load_rows(value["downloads"])))


def cabinet_text(value, whole, names):
    """Returns a cabinet's part of the report as text."""
    number, modes = value["cabinet"], value["modes"].items()
    left_out = names.left_out(number)
    parts = [f"{names.cabinet(number)}\n" + (f"{left_out}\n" if left_out else "")]
    parts += [table(list(phase_rows(value["phases"]))), table(list(walk_rows(value["phases"])))]
    rows = [{"mode": it, "seconds": time, "share": f"{100 * time / whole:.1f} %"} for it, time in modes if time]
    parts.append(table(rows))
    parts.append(table(list(pattern_rows(value["patterns"]))))
    parts += message_parts(value)
    names = {"note of the master": "note", "times": "times", "first round": "first", "last round": "last"}
    notes = [{name: it[key] for name, key in names.items()} for it in value["notes"]]
    parts.append(table(notes))
    return "\n".join(part for part in parts if part)


def text(value, names):
    """Returns the report as text for a terminal."""
    head = f"{value['rounds']} rounds, {value['seconds']:g} seconds, cabinets: {len(value['cabinets'])}\n"
    if names.title():
        head = f"{names.title()}: {head}"
    cabinets = [cabinet_text(it, value["seconds"], names) for it in value["cabinets"]]
    return "\n".join([head, *cabinets, *([] if value.get("traffic", True) else [NO_TRAFFIC])])
