Creator "igraph version 0.10.2 Tue Dec  1 23:47:48 2026"
Version 1
graph
[
  directed 1
  node
  [
    id 0
    name "bottom"
    label "bottom"
  ]
  node
  [
    id 1
    name "left"
    label "left"
  ]
  node
  [
    id 2
    name "middle"
    label "middle"
  ]
  node
  [
    id 3
    name "right"
    label "right"
  ]
  node
  [
    id 4
    name "join"
    label "join"
  ]
  node
  [
    id 5
    name "other"
    label "other"
  ]
  node
  [
    id 6
    name "top"
    label "top"
  ]
  edge
  [
    source 3
    target 5
    weight 1
  ]
  edge
  [
    source 2
    target 4
    weight 1
  ]
  edge
  [
    source 0
    target 2
    weight 1
  ]
  edge
  [
    source 4
    target 6
    weight 1
  ]
  edge
  [
    source 0
    target 3
    weight 1
  ]
  edge
  [
    source 1
    target 4
    weight 1
  ]
  edge
  [
    source 5
    target 6
    weight 1
  ]
  edge
  [
    source 0
    target 1
    weight 1
  ]
  edge
  [
    source 2
    target 5
    weight 1
  ]
]
