graph [
  directed 1
  multigraph 1
  node [
    id 0
    label "ground"
    x 100
    y 400
  ]
  node [
    id 1
    label "a"
    x 60
    y 300
  ]
  node [
    id 2
    label "b"
    x 140
    y 300
  ]
  node [
    id 3
    label "battery"
    x 100
    y 200
  ]
  edge [
    source 0
    target 1
    key 0
    weight 4.5
  ]
  edge [
    source 0
    target 1
    key 1
    weight +INF
  ]
  edge [
    source 0
    target 2
    key 0
    weight 1.5
  ]
  edge [
    source 1
    target 2
    key 0
    weight 0.25
  ]
  edge [
    source 1
    target 3
    key 0
    weight 1.E-07
  ]
  edge [
    source 2
    target 3
    key 0
    weight 3.0
  ]
  edge [
    source 2
    target 3
    key 1
    weight +INF
  ]
]
