# The diamond with names of edges, two orders, the outer face and one path. The vertex 3 is on the left of the vertex 2.
# Only the commands that draw look up the names in the path.
graph [
  node [ id 1 order [ e 11 e 10 ] ]
  node [ id 2 ]
  node [ id 3 ]
  node [ id 4 order [ e 12 e 13 ] ]
  edge [ id 10 source 1 target 2 ]
  edge [ id 11 source 1 target 3 ]
  edge [ id 12 source 2 target 4 ]
  edge [ id 13 source 3 target 4 ]
  outer [ edge 11 side 0 ]
  path [ e 10 e 12 ]
]
