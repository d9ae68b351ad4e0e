Creator "igraph version 0.10.2 Tue Dec  1 23:47:48 2026"
Version 1
graph
[
  directed 1
  node
  [
    id 0
    name "ground"
    label "ground"
  ]
  node
  [
    id 1
    name "a"
    label "a"
  ]
  node
  [
    id 2
    name "b"
    label "b"
  ]
  node
  [
    id 3
    name "battery"
    label "battery"
  ]
  edge
  [
    source 0
    target 1
    weight 4.5
  ]
  edge
  [
    source 0
    target 1
    weight Inf
  ]
  edge
  [
    source 0
    target 2
    weight 1.5
  ]
  edge
  [
    source 1
    target 2
    weight 0.25
  ]
  edge
  [
    source 1
    target 3
    weight 1e-07
  ]
  edge
  [
    source 2
    target 3
    weight 3
  ]
  edge
  [
    source 2
    target 3
    weight Inf
  ]
]
