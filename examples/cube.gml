# The graph of the cube, drawn in the plane as a square in a square. Its edges have no direction that means anything.
graph [ directed 0
node [ id 1 order [ e 0 e 8 e 3 ] ] node [ id 2 order [ e 1 e 9 e 0 ] ]
node [ id 3 order [ e 2 e 10 e 1 ] ] node [ id 4 order [ e 3 e 11 e 2 ] ]
node [ id 5 order [ e 4 e 7 e 8 ] ] node [ id 6 order [ e 9 e 5 e 4 ] ]
node [ id 7 order [ e 10 e 6 e 5 ] ] node [ id 8 order [ e 6 e 11 e 7 ] ]
edge [ source 1 target 2 ] edge [ source 2 target 3 ]
edge [ source 3 target 4 ] edge [ source 4 target 1 ]
edge [ source 5 target 6 ] edge [ source 6 target 7 ]
edge [ source 7 target 8 ] edge [ source 8 target 5 ]
edge [ source 1 target 5 ] edge [ source 2 target 6 ]
edge [ source 3 target 7 ] edge [ source 4 target 8 ]
]
