#!/usr/bin/env python3
"""places.py [up] < DRAWN.gml > ORDERED.gml: writes the orders that a drawing shows, by its coordinates.

For files of yEd, OGDF and Tulip, and of Graphviz after `dot`: each node has `graphics` with x and y, and an edge may
have a line with bends. y grows downwards, or upwards with the word `up`, as in Tulip. At each vertex the edges are
sorted clockwise by the angle of their first bend, from the direction to the sink on. Where the drawing has crossings,
`./stdraw test` refuses what comes out with the line on faces; orders.py finds orders then. Needs Python alone. It is
no part of what is proved of stdraw.
"""
import math
import sys

import gml


def point(found):
    return float(gml.one(found, "x")), float(gml.one(found, "y"))


def bends(edge, spots, tail, head):
    """The points of an edge from its tail to its head."""
    line = gml.one(gml.one(edge, "graphics", []), "Line", [])
    found = [point(each) for each in gml.all_of(line, "point")]
    return found if len(found) > 1 else [spots[tail], spots[head]]


def main():
    graph = gml.read(sys.stdin.read())
    spots, labels, around = {}, {}, {}
    for node in gml.all_of(graph, "node"):
        vertex = gml.one(node, "id")
        place = gml.one(node, "graphics", [])
        if gml.one(place, "x") is None or gml.one(place, "y") is None:
            sys.exit(f"places: node {vertex} has no place: lay the graph out first")
        spots[vertex], labels[vertex], around[vertex] = point(place), gml.one(node, "label", '""'), []
    ends = []
    for number, edge in enumerate(gml.all_of(graph, "edge")):
        tail, head = gml.one(edge, "source"), gml.one(edge, "target")
        line = bends(edge, spots, tail, head)
        ends.append((tail, head))
        around[tail].append((line[1], number))
        around[head].append((line[-2], number))
    heads, tails = {head for _, head in ends}, {tail for tail, _ in ends}
    lowest, highest = [v for v in spots if v not in heads], [v for v in spots if v not in tails]
    if len(lowest) != 1 or len(highest) != 1:
        sys.exit(f"places: {len(lowest)} sources and {len(highest)} sinks, where one of each is wanted")
    (x_low, y_low), (x_high, y_high) = spots[lowest[0]], spots[highest[0]]
    # where y grows downwards, angles grow clockwise
    sign = -1 if sys.argv[1:] == ["up"] else 1
    away = math.atan2(sign * (y_low - y_high), x_low - x_high)

    def turn(vertex, spot):
        x, y = spots[vertex]
        return (math.atan2(sign * (spot[1] - y), spot[0] - x) - away) % (2 * math.pi)

    orders = {vertex: [edge for spot, edge in sorted(at, key=lambda each: turn(vertex, each[0]))]
              for vertex, at in around.items()}
    gml.write(labels, orders, ends, graph, sys.stdout)


if __name__ == "__main__":
    main()
