# A bridge of resistors between two terminals: the edge from A to B is the bridge.
graph [
node [ id 1 label "+" ] node [ id 2 label "A" ]
node [ id 3 label "B" ] node [ id 4 label "-" ]
edge [ source 1 target 2 ] edge [ source 2 target 4 ]
edge [ source 2 target 3 ] edge [ source 1 target 3 ]
edge [ source 3 target 4 ]
]
