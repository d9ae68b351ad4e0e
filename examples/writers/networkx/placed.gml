graph [
  directed 1
  multigraph 1
  node [
    id 0
    label "bottom"
    x 100
    y 500
  ]
  node [
    id 1
    label "left"
    x 40
    y 400
  ]
  node [
    id 2
    label "middle"
    x 100
    y 380
  ]
  node [
    id 3
    label "right"
    x 160
    y 400
  ]
  node [
    id 4
    label "join"
    x 80
    y 280
  ]
  node [
    id 5
    label "other"
    x 180
    y 280
  ]
  node [
    id 6
    label "top"
    x 110
    y 180
  ]
  edge [
    source 0
    target 2
    key 0
    weight 1.0
  ]
  edge [
    source 0
    target 3
    key 0
    weight 1.0
  ]
  edge [
    source 0
    target 1
    key 0
    weight 1.0
  ]
  edge [
    source 1
    target 4
    key 0
    weight 1.0
  ]
  edge [
    source 2
    target 4
    key 0
    weight 1.0
  ]
  edge [
    source 2
    target 5
    key 0
    weight 1.0
  ]
  edge [
    source 3
    target 5
    key 0
    weight 1.0
  ]
  edge [
    source 4
    target 6
    key 0
    weight 1.0
  ]
  edge [
    source 5
    target 6
    key 0
    weight 1.0
  ]
]
