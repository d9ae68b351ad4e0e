# How a text gets printed: twice it goes two ways at once, and waits for both.
graph [
node [ id 1 label "text" ] node [ id 2 label "A" ]
node [ id 3 label "E" ] node [ id 4 label "ok" ]
node [ id 5 label "set" ] node [ id 6 label "art" ]
node [ id 7 label "out" ]
edge [ source 1 target 2 ] edge [ source 1 target 3 ]
edge [ source 2 target 4 ] edge [ source 3 target 4 ]
edge [ source 4 target 5 ] edge [ source 4 target 6 ]
edge [ source 5 target 7 ] edge [ source 6 target 7 ]
]
