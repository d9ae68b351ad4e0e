#!/usr/bin/env python3
"""make.py WRITER FOLDER: writes the graphs of graphs.txt by the program WRITER, as its users would.

WRITER is networkx, igraph, graph_tool, graphviz (needs dot and gv2gml) or plain, which Make.java, tulip.cpp and
ogdf.cpp read; or yed, which is written by hand in the form that yEd writes, since yEd writes no file without a
window.
"""
import os
import subprocess
import sys

HERE = os.path.dirname(os.path.abspath(__file__))


def graphs():
    """Name, vertices (label, x, y) and edges (tail, head, weight) of each graph, numbered from 0."""
    found = []
    with open(os.path.join(HERE, "graphs.txt"), encoding="utf-8") as file:
        for line in file:
            kind, *rest = line.rstrip("\n").split("\t")
            if kind == "graph":
                found.append((rest[0], [], []))
            elif kind == "v":
                found[-1][1].append((rest[0], int(rest[1]), int(rest[2])))
            elif kind == "e":
                found[-1][2].append((int(rest[0]) - 1, int(rest[1]) - 1, float(rest[2])))
    return found


def networkx(path, vertices, edges):
    import networkx as nx
    graph = nx.MultiDiGraph()
    for label, x, y in vertices:
        graph.add_node(label, x=x, y=y)
    for tail, head, weight in edges:
        graph.add_edge(vertices[tail][0], vertices[head][0], weight=weight)
    nx.write_gml(graph, path)


def igraph(path, vertices, edges):
    import igraph as ig
    graph = ig.Graph([(tail, head) for tail, head, _ in edges], n=len(vertices), directed=True)
    graph.vs["name"] = [label for label, _, _ in vertices]
    graph.vs["label"] = graph.vs["name"]
    graph.es["weight"] = [weight for _, _, weight in edges]
    graph.write_gml(path)


def graph_tool(path, vertices, edges):
    import graph_tool as gt
    graph = gt.Graph(directed=True)
    label, weight = graph.new_vertex_property("string"), graph.new_edge_property("double")
    for name, _, _ in vertices:
        label[graph.add_vertex()] = name
    for tail, head, number in edges:
        weight[graph.add_edge(tail, head)] = number
    graph.vertex_properties["label"], graph.edge_properties["weight"] = label, weight
    graph.save(path, fmt="gml")


def graphviz(path, vertices, edges):
    quoted = ['"' + label.replace('"', '\\"') + '"' for label, _, _ in vertices]
    text = ["digraph g {", "rankdir = BT"]
    text += [f"n{v} [label = {label}]" for v, label in enumerate(quoted)]
    # dot takes whole weights from 1
    whole = [int(weight) if 1 <= weight < 100 else 1 for _, _, weight in edges]
    text += [f"n{tail} -> n{head} [weight = {weight}]" for (tail, head, _), weight in zip(edges, whole)] + ["}"]
    dot = subprocess.run(["dot", "-Tdot"], input="\n".join(text).encode(), capture_output=True, check=True).stdout
    with open(path, "wb") as file:
        subprocess.run(["gv2gml"], input=dot, stdout=file, check=True)


def plain(path, vertices, edges):
    with open(path, "w", encoding="utf-8") as file:
        for label, x, y in vertices:
            print("v", label, x, y, sep="\t", file=file)
        for tail, head, weight in edges:
            print("e", tail, head, weight, sep="\t", file=file)


YED_NODE = """\tnode
\t[
\t\tid\t{v}
\t\tlabel\t"{label}"
\t\tgraphics
\t\t[
\t\t\tx\t{x}.0
\t\t\ty\t{y}.0
\t\t\tw\t30.0
\t\t\th\t30.0
\t\t\ttype\t"rectangle"
\t\t\traisedBorder\t0
\t\t\tfill\t"#FFCC00"
\t\t\toutline\t"#000000"
\t\t]
\t\tLabelGraphics
\t\t[
\t\t\ttext\t"{label}"
\t\t\tfontSize\t12
\t\t\tfontName\t"Dialog"
\t\t\tmodel\t"null"
\t\t]
\t]
"""
YED_EDGE = """\tedge
\t[
\t\tsource\t{tail}
\t\ttarget\t{head}
\t\tlabel\t"{weight:g}"
\t\tgraphics
\t\t[
\t\t\tfill\t"#000000"
\t\t\ttargetArrow\t"standard"
\t\t]
\t\tedgeAnchor
\t\t[
\t\t]
\t\tLabelGraphics
\t\t[
\t\t\ttext\t"{weight:g}"
\t\t\tfontSize\t12
\t\t\tmodel\t"six_pos"
\t\t\tposition\t"tail"
\t\t]
\t]
"""


def yed(path, vertices, edges):
    text = 'Creator\t"yFiles"\nVersion\t"2.22"\ngraph\n[\n\thierarchic\t1\n\tlabel\t""\n\tdirected\t1\n'
    for v, (label, x, y) in enumerate(vertices):
        label = label.replace("&", "&amp;").replace('"', "&quot;")
        label = "".join(c if ord(c) < 128 else f"&#{ord(c)};" for c in label)
        text += YED_NODE.format(v=v, label=label, x=x, y=y)
    for tail, head, weight in edges:
        text += YED_EDGE.format(tail=tail, head=head, weight=weight)
    with open(path, "w", encoding="ascii") as file:
        print(text + "]", file=file)


def main():
    if len(sys.argv) != 3 or sys.argv[1] not in ("networkx", "igraph", "graph_tool", "graphviz", "plain", "yed"):
        sys.exit(__doc__)
    write = globals()[sys.argv[1]]
    os.makedirs(sys.argv[2], exist_ok=True)
    for name, vertices, edges in graphs():
        write(os.path.join(sys.argv[2], name + (".txt" if write is plain else ".gml")), vertices, edges)


if __name__ == "__main__":
    main()
