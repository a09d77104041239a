"""Holds the map of the crates, docs/architecture.md, to crates.txt.

The map has a table of layers, lowest first, and under a heading of its name for each layer a table of its crates, lowest first. Behind a name stands what it
stands on directly: what is below that again is left out. A crate stands on rows before its own alone, which are in its layer or in one that its layer stands on.
"""
import os
import re
import sys

ROOT = os.path.dirname(os.path.dirname(os.path.dirname(os.path.abspath(__file__))))
sys.path.insert(0, f'{ROOT}/tools/build')
from crates import lines_of_crates  # noqa: E402

MAP = 'docs/architecture.md'
LAYER = re.compile(r'^\| ([a-z]+) \| [^|]* \| ([^|]*)\|$', re.M)
SECTION = re.compile(r'^### ([a-z]+)\n(.*?)(?=^#)', re.M | re.S)
CRATE = re.compile(r'^\| `([a-z_]+)` \| [^|]* \| ([^|]*)\| [^|]*\|$', re.M)


def below(name, graph):
    """All that the name stands on, directly or not."""
    found, left = set(), [*graph.get(name, ())]
    while left:
        other = left.pop()
        if other not in found:
            found.add(other)
            left += graph.get(other, ())
    return found


def directly(name, graph):
    """What the name stands on and nothing else of these does."""
    return {other for other in graph[name] if not any(other in below(beside, graph) for beside in graph[name])}


def names_in(cell):
    return set(re.findall(r'[a-z_]+', cell))


def of_layers(graph, layer_of):
    """The layers on which each layer's crates stand."""
    layers = {layer: set() for layer in layer_of.values()}
    for crate, others in graph.items():
        layers[layer_of[crate]] |= {layer_of[other] for other in others if other in layer_of} - {layer_of[crate]}
    return layers


def differing(told, graph):
    """What the page says otherwise than the graph; told are names in the order of the page, with what it says that each stands on."""
    faults, before = [], set()
    for name, others in told:
        right = directly(name, graph)
        if others != right:
            faults.append(f'{MAP}: {name} stands on {", ".join(sorted(right)) or "nothing"}')
        faults += [f'{MAP}: {name} stands before {other}, on which it stands' for other in sorted(right & graph.keys() - before)]
        before.add(name)
    return faults


def faults_of_map(page):
    """What the page says otherwise than crates.txt."""
    graph = {crate: others for crate, (_, others) in lines_of_crates().items()}
    sections = [(layer, CRATE.findall(rows)) for layer, rows in SECTION.findall(page + '#')]
    rows = [(layer, crate, cell) for layer, crates in sections for crate, cell in crates]
    told = [crate for _, crate, _ in rows]
    faults = [f'{MAP}: {crate} has {told.count(crate)} rows' for crate in graph if told.count(crate) != 1]
    faults += [f'{MAP}: there is no crate {crate}' for crate in told if crate not in graph]
    if faults:
        return faults
    layer_of = {crate: layer for layer, crate, _ in rows}
    layers = of_layers(graph, layer_of)
    told_layers = [(layer, names_in(cell)) for layer, cell in LAYER.findall(page)]
    if [layer for layer, _ in told_layers] != [layer for layer, _ in sections]:
        return [f'{MAP}: the table of layers has {", ".join(layer for layer, _ in told_layers)}, and the headings {", ".join(layer for layer, _ in sections)}']
    return differing(told_layers, layers) + differing([(crate, names_in(cell)) for _, crate, cell in rows], graph)
