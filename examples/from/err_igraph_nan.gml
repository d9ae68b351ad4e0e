Creator "igraph version 0.10.2"
Version 1
graph
[
  directed 1
  node
  [
    id 0
    size NaN
  ]
]
