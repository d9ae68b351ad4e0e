graph [
  directed 1
  multigraph 1
  node [
    id 0
    label "libc"
    x 60
    y 500
  ]
  node [
    id 1
    label "zlib"
    x 200
    y 500
  ]
  node [
    id 2
    label "ssl"
    x 60
    y 400
  ]
  node [
    id 3
    label "png"
    x 200
    y 400
  ]
  node [
    id 4
    label "http"
    x 60
    y 300
  ]
  node [
    id 5
    label "image"
    x 200
    y 300
  ]
  node [
    id 6
    label "browser"
    x 130
    y 200
  ]
  node [
    id 7
    label "viewer"
    x 260
    y 200
  ]
  edge [
    source 0
    target 2
    key 0
    weight 1.0
  ]
  edge [
    source 0
    target 3
    key 0
    weight 1.0
  ]
  edge [
    source 1
    target 3
    key 0
    weight 1.0
  ]
  edge [
    source 2
    target 4
    key 0
    weight 1.0
  ]
  edge [
    source 3
    target 5
    key 0
    weight 1.0
  ]
  edge [
    source 4
    target 6
    key 0
    weight 1.0
  ]
  edge [
    source 5
    target 6
    key 0
    weight 1.0
  ]
  edge [
    source 5
    target 7
    key 0
    weight 1.0
  ]
]
