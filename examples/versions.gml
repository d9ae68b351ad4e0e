# The versions of a text: from each an edge to what was made from it. Two branches meet again twice.
graph [
node [ id 1 label "v1" ] node [ id 2 label "v2" ]
node [ id 3 label "fix" ] node [ id 4 label "draft" ]
node [ id 5 label "docs" ] node [ id 6 label "v3" ] node [ id 7 label "v4" ]
edge [ source 1 target 2 ]
edge [ source 2 target 3 ] edge [ source 2 target 4 ]
edge [ source 3 target 6 ] edge [ source 4 target 6 ]
edge [ source 4 target 5 ]
edge [ source 6 target 7 ] edge [ source 5 target 7 ]
]
