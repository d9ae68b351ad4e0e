Creator "ogdf::GraphIO::writeGML"
graph [
  directed 1
  node [
    id 0
    label "bottom"
    graphics [
      x 100.0000000
      y 500.0000000
      w 0.000000000
      h 0.000000000
      type "rectangle"
    ]
  ]
  node [
    id 1
    label "left"
    graphics [
      x 40.00000000
      y 400.0000000
      w 0.000000000
      h 0.000000000
      type "rectangle"
    ]
  ]
  node [
    id 2
    label "middle"
    graphics [
      x 100.0000000
      y 380.0000000
      w 0.000000000
      h 0.000000000
      type "rectangle"
    ]
  ]
  node [
    id 3
    label "right"
    graphics [
      x 160.0000000
      y 400.0000000
      w 0.000000000
      h 0.000000000
      type "rectangle"
    ]
  ]
  node [
    id 4
    label "join"
    graphics [
      x 80.00000000
      y 280.0000000
      w 0.000000000
      h 0.000000000
      type "rectangle"
    ]
  ]
  node [
    id 5
    label "other"
    graphics [
      x 180.0000000
      y 280.0000000
      w 0.000000000
      h 0.000000000
      type "rectangle"
    ]
  ]
  node [
    id 6
    label "top"
    graphics [
      x 110.0000000
      y 180.0000000
      w 0.000000000
      h 0.000000000
      type "rectangle"
    ]
  ]
  edge [
    source 3
    target 5
    graphics [
      type "line"
      arrow "last"
      weight 1.000000000
    ]
  ]
  edge [
    source 2
    target 4
    graphics [
      type "line"
      arrow "last"
      weight 1.000000000
    ]
  ]
  edge [
    source 0
    target 2
    graphics [
      type "line"
      arrow "last"
      weight 1.000000000
    ]
  ]
  edge [
    source 4
    target 6
    graphics [
      type "line"
      arrow "last"
      weight 1.000000000
    ]
  ]
  edge [
    source 0
    target 3
    graphics [
      type "line"
      arrow "last"
      weight 1.000000000
    ]
  ]
  edge [
    source 1
    target 4
    graphics [
      type "line"
      arrow "last"
      weight 1.000000000
    ]
  ]
  edge [
    source 5
    target 6
    graphics [
      type "line"
      arrow "last"
      weight 1.000000000
    ]
  ]
  edge [
    source 0
    target 1
    graphics [
      type "line"
      arrow "last"
      weight 1.000000000
    ]
  ]
  edge [
    source 2
    target 5
    graphics [
      type "line"
      arrow "last"
      weight 1.000000000
    ]
  ]
]
