Creator "ogdf::GraphIO::writeGML"
graph [
  directed 1
  node [
    id 0
    label "libc"
    graphics [
      x 60.00000000
      y 500.0000000
      w 0.000000000
      h 0.000000000
      type "rectangle"
    ]
  ]
  node [
    id 1
    label "zlib"
    graphics [
      x 200.0000000
      y 500.0000000
      w 0.000000000
      h 0.000000000
      type "rectangle"
    ]
  ]
  node [
    id 2
    label "ssl"
    graphics [
      x 60.00000000
      y 400.0000000
      w 0.000000000
      h 0.000000000
      type "rectangle"
    ]
  ]
  node [
    id 3
    label "png"
    graphics [
      x 200.0000000
      y 400.0000000
      w 0.000000000
      h 0.000000000
      type "rectangle"
    ]
  ]
  node [
    id 4
    label "http"
    graphics [
      x 60.00000000
      y 300.0000000
      w 0.000000000
      h 0.000000000
      type "rectangle"
    ]
  ]
  node [
    id 5
    label "image"
    graphics [
      x 200.0000000
      y 300.0000000
      w 0.000000000
      h 0.000000000
      type "rectangle"
    ]
  ]
  node [
    id 6
    label "browser"
    graphics [
      x 130.0000000
      y 200.0000000
      w 0.000000000
      h 0.000000000
      type "rectangle"
    ]
  ]
  node [
    id 7
    label "viewer"
    graphics [
      x 260.0000000
      y 200.0000000
      w 0.000000000
      h 0.000000000
      type "rectangle"
    ]
  ]
  edge [
    source 0
    target 2
    graphics [
      type "line"
      arrow "last"
      weight 1.000000000
    ]
  ]
  edge [
    source 0
    target 3
    graphics [
      type "line"
      arrow "last"
      weight 1.000000000
    ]
  ]
  edge [
    source 1
    target 3
    graphics [
      type "line"
      arrow "last"
      weight 1.000000000
    ]
  ]
  edge [
    source 2
    target 4
    graphics [
      type "line"
      arrow "last"
      weight 1.000000000
    ]
  ]
  edge [
    source 3
    target 5
    graphics [
      type "line"
      arrow "last"
      weight 1.000000000
    ]
  ]
  edge [
    source 4
    target 6
    graphics [
      type "line"
      arrow "last"
      weight 1.000000000
    ]
  ]
  edge [
    source 5
    target 6
    graphics [
      type "line"
      arrow "last"
      weight 1.000000000
    ]
  ]
  edge [
    source 5
    target 7
    graphics [
      type "line"
      arrow "last"
      weight 1.000000000
    ]
  ]
]
