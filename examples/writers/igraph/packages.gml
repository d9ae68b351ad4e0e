Creator "igraph version 0.10.2 Tue Dec  1 23:47:48 2026"
Version 1
graph
[
  directed 1
  node
  [
    id 0
    name "libc"
    label "libc"
  ]
  node
  [
    id 1
    name "zlib"
    label "zlib"
  ]
  node
  [
    id 2
    name "ssl"
    label "ssl"
  ]
  node
  [
    id 3
    name "png"
    label "png"
  ]
  node
  [
    id 4
    name "http"
    label "http"
  ]
  node
  [
    id 5
    name "image"
    label "image"
  ]
  node
  [
    id 6
    name "browser"
    label "browser"
  ]
  node
  [
    id 7
    name "viewer"
    label "viewer"
  ]
  edge
  [
    source 0
    target 2
    weight 1
  ]
  edge
  [
    source 0
    target 3
    weight 1
  ]
  edge
  [
    source 1
    target 3
    weight 1
  ]
  edge
  [
    source 2
    target 4
    weight 1
  ]
  edge
  [
    source 3
    target 5
    weight 1
  ]
  edge
  [
    source 4
    target 6
    weight 1
  ]
  edge
  [
    source 5
    target 6
    weight 1
  ]
  edge
  [
    source 5
    target 7
    weight 1
  ]
]
