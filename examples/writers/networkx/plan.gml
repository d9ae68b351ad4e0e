graph [
  directed 1
  multigraph 1
  node [
    id 0
    label "go"
    x 100
    y 500
  ]
  node [
    id 1
    label "plan"
    x 60
    y 420
  ]
  node [
    id 2
    label "site"
    x 160
    y 420
  ]
  node [
    id 3
    label "base"
    x 120
    y 340
  ]
  node [
    id 4
    label "roof"
    x 120
    y 260
  ]
  node [
    id 5
    label "panes"
    x 60
    y 180
  ]
  node [
    id 6
    label "light"
    x 160
    y 180
  ]
  node [
    id 7
    label "in"
    x 100
    y 100
  ]
  edge [
    source 0
    target 1
    key 0
    weight 2.0
  ]
  edge [
    source 0
    target 2
    key 0
    weight 1.0
  ]
  edge [
    source 1
    target 5
    key 0
    weight 6.0
  ]
  edge [
    source 1
    target 3
    key 0
    weight 1.0
  ]
  edge [
    source 2
    target 3
    key 0
    weight 3.0
  ]
  edge [
    source 3
    target 4
    key 0
    weight 4.0
  ]
  edge [
    source 4
    target 5
    key 0
    weight 1.0
  ]
  edge [
    source 4
    target 6
    key 0
    weight 2.0
  ]
  edge [
    source 5
    target 7
    key 0
    weight 2.0
  ]
  edge [
    source 6
    target 7
    key 0
    weight 2.0
  ]
]
