#!/usr/bin/env python3
"""orders.py < ANY.gml > ORDERED.gml: finds the order of the edges at each vertex, so that stdraw can draw the graph.

Takes any directed graph without a cycle. Where it has several sources, a vertex `0` with an edge to each of them is
added, and a vertex `1` above several sinks. NetworkX looks for an embedding with both poles on one face. Each such
embedding is one that stdraw draws, so the answer is final: where none is found, the graph has no drawing with rising
edges, no crossings and both poles on the outside.

Needs NetworkX. It is no part of what is proved of stdraw: `./stdraw test` says whether the orders that it found are
right.
"""
import sys

import networkx as nx

import gml


def pole(labels, ends, free, label, edge_to):
    """The one free vertex, or a new one with an edge to each."""
    if len(free) == 1:
        return free[0]
    new = max(labels, default=0) + 1
    labels[new] = f'"{label}"'
    ends.extend(edge_to(new, vertex) for vertex in free)
    return new


def orders_of(labels, ends, source, sink):
    """The edges at each vertex clockwise, the source's from the outer face on; None where there is no embedding."""
    between = {}
    for edge, pair in enumerate(ends):
        between.setdefault(pair, []).append(edge)
    flat = nx.Graph()
    flat.add_nodes_from(labels)
    flat.add_edges_from(ends)
    flat.add_edge(source, sink)
    is_planar, ring = nx.check_planarity(flat)
    if not is_planar:
        return None
    orders = {}
    for vertex in labels:
        around = list(ring.neighbors_cw_order(vertex))
        if vertex == source:
            begin = around.index(sink)
            around = around[begin:] + around[:begin]
        # parallel edges stand in one order at their tail and in the opposite one at their head
        orders[vertex] = [edge for other in around
                          for edge in between.get((vertex, other), []) + between.get((other, vertex), [])[::-1]]
    return orders


def main():
    graph = gml.read(sys.stdin.read())
    labels = {int(gml.one(node, "id")): gml.one(node, "label", '""') for node in gml.all_of(graph, "node")}
    ends = [(int(gml.one(edge, "source")), int(gml.one(edge, "target"))) for edge in gml.all_of(graph, "edge")]
    directed = nx.DiGraph(ends)
    if not nx.is_directed_acyclic_graph(directed):
        sys.exit("orders: a cycle: " + " ".join(str(tail) for tail, _ in nx.find_cycle(directed)))
    heads, tails = {head for _, head in ends}, {tail for tail, _ in ends}
    lowest, highest = [v for v in labels if v not in heads], [v for v in labels if v not in tails]
    source = pole(labels, ends, lowest, "0", lambda new, vertex: (new, vertex))
    sink = pole(labels, ends, highest, "1", lambda new, vertex: (vertex, new))
    orders = orders_of(labels, ends, source, sink)
    if orders is None:
        sys.exit("orders: the graph has no drawing without crossings and with both poles on the outside")
    gml.write(labels, orders, ends, graph, sys.stdout)


if __name__ == "__main__":
    main()
