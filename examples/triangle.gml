# Three edges round a triangle: a cycle as it stands, and a planar st-graph from 1 to 3 when one edge is turned.
graph [
node [ id 1 ] node [ id 2 ] node [ id 3 ]
edge [ source 1 target 2 ]
edge [ source 2 target 3 ]
edge [ source 3 target 1 ]
]
