"""Reads as much of GML as the tools beside it need: the graph, its nodes and its edges."""
import re


def pairs(words):
    """The keys and values up to the closing bracket: [(key, value), ..], a list of pairs for a list."""
    found = []
    stack = []
    key = None
    for word in words:
        if word == "]":
            if not stack:
                break
            found, key = stack.pop(), None
        elif key is None:
            key = word
        elif word == "[":
            inner = []
            found.append((key, inner))
            stack.append(found)
            found, key = inner, None
        else:
            found.append((key, word))
            key = None
    return found


def all_of(found, key):
    return [value for name, value in found if name == key]


def one(found, key, other=None):
    return (all_of(found, key) or [other])[0]


def read(text):
    """The graph of the text: its pairs."""
    text = re.sub(r"^\s*#.*$", "", text, flags=re.M)
    return one(pairs(iter(re.findall(r'"[^"]*"|\[|\]|[^\s\[\]"]+', text))), "graph", [])


def paths(graph):
    """The paths that the file names, as lists of the places of their edges; an edge's name is its id, or its place."""
    names = [one(edge, "id") for edge in all_of(graph, "edge")]
    if None in names:
        names = [str(place) for place in range(len(names))]
    place = {name: at for at, name in enumerate(names)}
    return [[place[name] for name in all_of(path, "e") if name in place] for path in all_of(graph, "path")]


def lengths(graph):
    """The `minlen` of each edge, or None where it has none."""
    return [one(edge, "minlen") for edge in all_of(graph, "edge")]


def write(labels, orders, ends, graph, out):
    """The graph as GML that stdraw takes: with orders, and with paths and lengths of the graph that was read."""
    least = dict(enumerate(lengths(graph)))
    print("graph [ directed 1", file=out)
    for vertex, label in labels.items():
        around = "".join(f" e {edge}" for edge in orders[vertex])
        print(f"node [ id {vertex} label {label} order [{around} ] ]", file=out)
    for edge, (tail, head) in enumerate(ends):
        length = f" minlen {least[edge]}" if least.get(edge) else ""
        print(f"edge [ id {edge} source {tail} target {head}{length} ]", file=out)
    for path in paths(graph):
        print("path [" + "".join(f" e {edge}" for edge in path) + " ]", file=out)
    print("]", file=out)
