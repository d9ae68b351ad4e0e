#!/bin/sh
# Writes a planar st-graph at the limits, about 12 MB of GML, listed in an order that is bad for passes.
#
# It has 100,000 vertices, named 1 to 100000, and 300,000 edges. It is a strip of triangles between a left side, the odd
# vertices, and a right side, the even ones. From each vertex v lead one edge to v + 2 up the side and two to v + 1 across,
# six from vertex 1. The edges of the left side are listed first, then those across, then those of the right side, so that
# at each vertex the order of the file goes from left to right. Each group is listed from the last vertex down to the first,
# so that a pass over all edges in file order finds only a few new vertices: a program that makes such passes needs
# thousands of them.
awk '
    function edge(from, to) { print "edge [ source " from " target " to " ]" }
    BEGIN {
        n = 100000
        print "graph ["
        for (v = 1; v <= n; v++) print "node [ id " v " ]"
        for (v = n - 3; v >= 1; v -= 2) edge(v, v + 2)
        for (v = n - 1; v >= 1; v--) { edge(v, v + 1); edge(v, v + 1) }
        for (k = 0; k < 4; k++) edge(1, 2)
        for (v = n - 2; v >= 2; v -= 2) edge(v, v + 2)
        print "]"
    }'
