graph [
  version 2
  directed 1
  graphics [
    w 54.0
    h 108.0
  ]
  node [
    id 0
    name "a"
    graphics [
      x 27.0
      y 90.0
      fill "#lightgrey"
    ]
  ]
  node [
    id 1
    name "b"
  ]
  edge [
    id 0
    source 0
    target 1
    weight "2"
  ]
]
