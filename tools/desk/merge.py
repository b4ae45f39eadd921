"""A TOML file over the database that it names: what the TOML says of an I-PDU or a message is added, and wins where both say something."""
import os

from .sections import Section, question
from .wrong import Wrong, line

# Keys that say the same in two ways: the TOML's way replaces the database's.
TWO_WAYS = [{"start_bit", "dbc_start_bit"}, {"initial_value", "initial_value_raw"}]
# Keys, one of which a section needs that stands by itself, with no section of the database below it.
ALONE = {"ipdu": {"size_in_bytes"}, "message": {"ipdu", "receives", "node"}}
TABLES = {"receiver", "values", "filter"}  # keys of a message that are tables
# Keys of an I-PDU that has a sender.
SENDING = {"transmission_mode", "time_period_ms", "time_offset_ms", "minimum_delay_time_ms"}


def merged(path, data):
    """The sections, the file of each key that the database gave, the database's nodes, and by section the lines that refuse what it has."""
    top = Section(path, "", data)
    database, left_out = top.text("database", None), top.names("leave_out", [])
    if database is None:
        if left_out:
            raise top.wrong("leave_out", "is for what a database has, and there is no database")
        return data, {}, [], {}
    from .database import read
    file = database_file(path, database)
    below = read(file)
    data, left_out = with_own_names(top, below), [own_name(below, name) for name in left_out]
    nodes = top.names("nodes", below["nodes"])
    check_nodes(top, nodes, below["nodes"], data)
    for name in left_out:
        top.known("leave_out", name, [*below["ipdu"], *below["message"]], "I-PDU or message of the database")
    kept = kept_of(below, data, nodes, left_out)
    origins, refused, both = {}, {}, dict(data, nodes=nodes)
    for kind in ("ipdu", "message"):
        own = data[kind]
        both[kind] = {}
        for name in dict.fromkeys([*kept[kind], *own]):
            given, over = kept[kind].get(name, {}), own.get(name, {})
            if not isinstance(over, dict):
                both[kind][name] = over
                continue
            hidden = {key for way in TWO_WAYS if way & set(over) for key in way} | set(over)
            if kind == "ipdu" and "sender" not in given and "sender" not in over:
                hidden |= SENDING
            if given.get("receivers") == [] and has_receivers(data["ipdu"].get(given["ipdu"])):
                hidden |= {"receivers"}
            reasons = {**given.get("refused", {}), **lost_multiplexor(given, left_out)}
            given = {key: value for key, value in given.items() if key not in hidden and key != "refused"}
            both[kind][name] = {**given, **over}
            origins[kind, name] = dict.fromkeys(given, file)
            refused[kind, name] = [line(file, f"{kind}.{name}.{key}".rstrip("."), reason) for key, reason in reasons.items() if key not in hidden]
            refused[kind, name] += [line(path, key, reason) for key, reason in not_found(below, kind, name, over)]
    return both, origins, below["nodes"], refused


def database_file(path, name):
    """A database's file, which a TOML names beside itself."""
    return os.path.join(os.path.dirname(path), name)


def has_receivers(section):
    """Whether the TOML says who receives an I-PDU: then a message of nobody's in the database is theirs."""
    return isinstance(section, dict) and "receivers" in section


def named_nodes(data):
    """The nodes that the sections of a TOML name."""
    found = set()
    for section in (section for kind in ("ipdu", "message") for section in data[kind].values() if isinstance(section, dict)):
        found |= {name for key in ("sender", "node") if isinstance(name := section.get(key), str)}
        found |= {name for key in ("receivers", "receiver") if isinstance(section.get(key), (list, dict)) for name in section[key] if isinstance(name, str)}
    return found


def check_nodes(top, nodes, known, data):
    """Refuses a node that neither the database nor a section of the TOML has."""
    unknown = [node for node in nodes if node not in {*known, *named_nodes(data)}]
    if unknown:
        raise Wrong(*(line(top.file, "nodes", f"there is no node \"{node}\" in {top.text('database')}{question(node, known)}") for node in unknown))


def not_found(below, kind, name, section):
    """Key and reason for each name of the TOML that was meant to be one of the database's."""
    dotted = [f"{name}.{key}" for key, value in section.items() if isinstance(value, dict) and key not in TABLES]
    if kind == "message" and name in below["ipdu"] and dotted:
        return [(f"message.{written}", f"a name with a dot is written in quotes: [message.\"{written}\"]") for written in dotted]
    if name in below[kind] or ALONE[kind] & set(section):
        return []
    several = [f"\"{other}\"" for other in below["message"] if kind == "message" and other.endswith(f".{name}")]
    if several:
        return [(f"message.{name}", f"stands in several frames: write {' or '.join(several)}")]
    what = "I-PDU" if kind == "ipdu" else "message"
    return [(f"{kind}.{name}", f"the database has no {what} \"{name}\"{question(name, names_of(below, kind))}")]


def names_of(below, kind):
    """The names that a section may have; of a message also FRAME.SIGNAL."""
    return [*below[kind], *(f"{section['ipdu']}.{name}" for name, section in below[kind].items() if kind == "message" and "." not in name)]


def lost_multiplexor(section, left_out):
    """Why a message can't stay whose multiplexor the TOML leaves out; nothing where it can."""
    name = section.get("multiplexor")
    return {"multiplexor": f"{name} is left out, and a frame holds this one only while {name} is {section['multiplexor_value']}"} if name in left_out else {}


def own_name(below, name):
    """The database's name of a message that the TOML calls FRAME.SIGNAL."""
    frame, _, signal = name.partition(".")
    return signal if name not in below["message"] and below["message"].get(signal, {}).get("ipdu") == frame else name


def with_own_names(top, below):
    """The TOML with the database's names of its messages."""
    sections, messages = {kind: top.table(kind) for kind in ("ipdu", "message")}, {}
    for written, section in sections["message"].items():
        name = own_name(below, written)
        if name in messages:
            raise top.wrong(f"message.{written}", f"is {name}, which has a section already")
        if isinstance(section, dict):
            named = {key: own_name(below, section[key]) for key in ("receives", "multiplexor") if isinstance(section.get(key), str)}
            section = {**section, **named}
        messages[name] = section
    return dict(top.data, ipdu=sections["ipdu"], message=messages)


def kept_of(below, data, nodes, left_out):
    """What of the database these nodes send or receive or the TOML has a section for, without what the TOML leaves out."""
    wanted = {*data["ipdu"], *(below["message"][name]["ipdu"] for name in data["message"] if name in below["message"])}
    wanted |= {name for name, ipdu in below["ipdu"].items() if ipdu.get("sender") in nodes}
    wanted |= {message["ipdu"] for message in below["message"].values() if set(message["receivers"]) & set(nodes)}
    ipdus = {name: ipdu for name, ipdu in below["ipdu"].items() if name in wanted and name not in left_out}
    messages = {name: message for name, message in below["message"].items() if name not in left_out and message["ipdu"] in ipdus}
    return {"ipdu": ipdus, "message": messages}
