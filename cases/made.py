"""Large texts of cases and the answers to them, made by the rules of docs/TEXTS.md and not by the program."""

STRUCT = "struct R { uint n; };\n"
NODE = '[Shader("node")] [NodeLaunch("thread")]\nvoid {}(ThreadNodeInputRecord<R> i'
QUIET = ") {{ }}\n"
SENDS = (
    ", [MaxRecords(1)] NodeOutput<R> {0}) {{ ThreadNodeOutputRecords<R> o = {0}.GetThreadNodeOutputRecords(1); "
    "o.Get().n = i.Get().n + 1; o.OutputComplete(); }}\n"
)


def node_name(place):
    return chr(ord("A") + place // 26) + chr(ord("a") + place % 26)


def chain(nodes):
    """A graph of so many nodes, Aa, Ab and on, each of which sends one record to the next."""
    nodes = int(nodes)
    lines = [NODE.format(node_name(place)) + SENDS.format(node_name(place + 1)) for place in range(nodes - 1)]
    return "".join([STRUCT, *lines, NODE.format(node_name(nodes - 1)), QUIET.format()]).encode()


def entries(name, word, count):
    """A script of so many equal entry records."""
    return ("script 1\n" + f"entry {name} {word}\n" * int(count)).encode()


def chain_report(nodes, count):
    """The report of a chain: the deepest record goes first, so each entry runs to the last node before the next."""
    nodes, count = int(nodes), int(count)
    lines, sent = [], count
    for entry in range(count):
        taken = entry
        for place in range(nodes):
            out = f" {sent}" if place + 1 < nodes else ""
            lines.append(f"{len(lines)} {node_name(place)}[0]@0 g 0 0 0 in {taken} out{out}\n")
            taken, sent = sent, sent + (place + 1 < nodes)
    peak = 4 if nodes > 1 and count > 0 else 0
    launches = nodes * count
    lines.append(f"done launches {launches} records {sent} denied 0 peak {peak} of {4 * (nodes - 1)}\n")
    return "".join(lines).encode()


def letters(count):
    """A text of so many letters."""
    return b"x" * int(count)


MADE = {"chain": chain, "entries": entries, "chain_report": chain_report, "letters": letters}
