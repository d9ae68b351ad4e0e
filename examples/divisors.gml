# The divisors of 36: from each an edge to the next by 2, on the left, and by 3, on the right. A lattice.
graph [
node [ id 1 label "1" ] node [ id 2 label "2" ] node [ id 3 label "3" ]
node [ id 4 label "4" ] node [ id 6 label "6" ] node [ id 9 label "9" ]
node [ id 12 label "12" ] node [ id 18 label "18" ] node [ id 36 label "36" ]
edge [ source 1 target 2 ] edge [ source 1 target 3 ]
edge [ source 2 target 4 ] edge [ source 2 target 6 ]
edge [ source 3 target 6 ] edge [ source 3 target 9 ]
edge [ source 4 target 12 ] edge [ source 6 target 12 ]
edge [ source 6 target 18 ] edge [ source 9 target 18 ]
edge [ source 12 target 36 ] edge [ source 18 target 36 ]
]
