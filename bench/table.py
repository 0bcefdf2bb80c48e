"""The tables of the comparison, in Markdown."""

import math

PARTS = ["one", "several", "refused"]
HEAD = ["family", "graphs", "leaves", "ours", "plain C", "plain C, pruned",
        "encoding", "nauty", "encoding + nauty", "bliss", "encoding + bliss", "ours / better peer", "ours / plain C"]
KINDS = ["isomorphic", "not isomorphic", "refused"]
RDFLIB_HEAD = ["family", "pairs", "`isomorphic`, a pair", "`to_canonical_graph`, a graph", "denied", "confused"]


def rows_of(cells, text_columns=1):
    """Lines of a table: a head, and rows, of which the columns behind the first are numbers."""
    lines = ["| " + " | ".join(row) + " |" for row in cells]
    rule = "|" + "|".join("---" if column < text_columns else "--:" for column in range(len(cells[0]))) + "|"
    return [lines[0], rule, *lines[1:]]


def nauty(times):
    """nauty by whichever of its two routines is faster for the family."""
    return min(times["nauty_dense"], times["nauty_sparse"])


def peer(times):
    return times["encode"] + min(nauty(times), times["bliss"])


def leaves(times):
    if times["part"] == "refused":
        return "refused"
    return str(times["fewest"]) if times["fewest"] == times["most"] else f"{times['fewest']} to {times['most']:,}"


def time_row(family, t):
    figures = [t["library"], t["plain"], t["pruned"], t["encode"], nauty(t), t["encode"] + nauty(t), t["bliss"], t["encode"] + t["bliss"]]
    ratios = [t["library"] / peer(t), t["library"] / t["plain"]]
    return [family, str(t["graphs"]), leaves(t), *(f"{f:,.0f}" for f in figures), *(f"{r:.2f}" for r in ratios)]


def mean(ratios):
    return math.exp(sum(map(math.log, ratios)) / len(ratios))


def mean_line(what, times):
    if not times:
        return f"- {what}: none"
    peers = mean([t["library"] / peer(t) for t in times])
    plain = mean([t["library"] / t["plain"] for t in times])
    return f"- {what}: **{peers:.2f}** times the better peer, **{plain:.2f}** times plain C (geometric means over {len(times)} rows)"


def times_table(measured):
    """`measured`: for each family its name and its parts, as `times` told them."""
    ordered = [(family, t) for part in PARTS for family, parts in measured for t in parts if t["part"] == part]
    lines = rows_of([HEAD, *(time_row(family, t) for family, t in ordered)])
    one, several = ([t for _, t in ordered if t["part"] == part] for part in PARTS[:2])
    return [*lines, "", mean_line("Where colours tell all blank nodes apart, ours takes", one), mean_line("Where there are several leaves", several)]


def micro(seconds):
    return f"{seconds * 1e6:,.0f}"


def rdflib_row(family, pairs, late):
    if not pairs:
        return [family, "0", "more than the limit" if late else "no triples", "", "", ""]
    denied, confused = (sum(p[key] for p in pairs) for key in ("denied", "confused"))
    compare, canonical = (sum(p[key] for p in pairs) / len(pairs) for key in ("compare", "canonical"))
    return [family, str(len(pairs)), micro(compare), micro(canonical), str(denied), str(confused)]


def rdflib_table(asked):
    """`asked`: for each family its name, its pairs with what rdflib took and told, and whether it was stopped."""
    return rows_of([RDFLIB_HEAD, *(rdflib_row(*each) for each in asked)])


def count_kinds(verdicts):
    return [sum(v.startswith(kind) for v in verdicts) for kind in KINDS]


def agreement_table(verdicts):
    """`verdicts`: for each family its name and what was found of each pair."""
    everything = [v for _, found in verdicts for v in found]
    rows = [[family, str(len(found)), *map(str, count_kinds(found))] for family, found in [*verdicts, ("all", everything)]]
    return rows_of([["family", "pairs", *KINDS], *rows])
