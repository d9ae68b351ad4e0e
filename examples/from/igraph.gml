Creator "igraph version 0.10.2"
Version 1
graph
[
  directed 1
  about "two lines
of text"
  node
  [
    id 0
    name "a &quot;b&quot;"
  ]
  node
  [
    id 1
    name "c"
    size 1e+06
  ]
  edge
  [
    source 0
    target 1
    weight 0.333333333333333
  ]
  edge
  [
    source 0
    target 1
    weight 1e-05
  ]
]
