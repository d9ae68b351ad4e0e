Creator "igraph version 0.10.2 Tue Dec  1 23:47:48 2026"
Version 1
graph
[
  directed 1
  node
  [
    id 0
    name "go"
    label "go"
  ]
  node
  [
    id 1
    name "plan"
    label "plan"
  ]
  node
  [
    id 2
    name "site"
    label "site"
  ]
  node
  [
    id 3
    name "base"
    label "base"
  ]
  node
  [
    id 4
    name "roof"
    label "roof"
  ]
  node
  [
    id 5
    name "panes"
    label "panes"
  ]
  node
  [
    id 6
    name "light"
    label "light"
  ]
  node
  [
    id 7
    name "in"
    label "in"
  ]
  edge
  [
    source 0
    target 1
    weight 2
  ]
  edge
  [
    source 0
    target 2
    weight 1
  ]
  edge
  [
    source 1
    target 5
    weight 6
  ]
  edge
  [
    source 1
    target 3
    weight 1
  ]
  edge
  [
    source 2
    target 3
    weight 3
  ]
  edge
  [
    source 3
    target 4
    weight 4
  ]
  edge
  [
    source 4
    target 5
    weight 1
  ]
  edge
  [
    source 4
    target 6
    weight 2
  ]
  edge
  [
    source 5
    target 7
    weight 2
  ]
  edge
  [
    source 6
    target 7
    weight 2
  ]
]
