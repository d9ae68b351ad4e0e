graph [
  directed 1
  name "order"
  node [
    id 0
    label "order"
    weight 1.5
  ]
  node [
    id 1
    label "caf&#233;"
    weight 2.0E-05
  ]
  node [
    id 2
    label "3"
    count "4294967296"
  ]
  edge [
    source 0
    target 1
    cost -2.25
  ]
  edge [
    source 1
    target 2
    tags "_networkx_list_start"
    tags "a"
  ]
]
