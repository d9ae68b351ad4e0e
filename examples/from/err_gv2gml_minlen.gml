graph [
  version 2
  directed 1
  node [
    id 0
    name "a"
  ]
  node [
    id 1
    name "b"
  ]
  edge [
    id 0
    source 0
    target 1
    minlen ""
  ]
]
