Creator "ogdf::GraphIO::writeGML"
graph [
  directed 1
  node [
    id 0
    label "go"
    graphics [
      x 100.0000000
      y 500.0000000
      w 0.000000000
      h 0.000000000
      type "rectangle"
    ]
  ]
  node [
    id 1
    label "plan"
    graphics [
      x 60.00000000
      y 420.0000000
      w 0.000000000
      h 0.000000000
      type "rectangle"
    ]
  ]
  node [
    id 2
    label "site"
    graphics [
      x 160.0000000
      y 420.0000000
      w 0.000000000
      h 0.000000000
      type "rectangle"
    ]
  ]
  node [
    id 3
    label "base"
    graphics [
      x 120.0000000
      y 340.0000000
      w 0.000000000
      h 0.000000000
      type "rectangle"
    ]
  ]
  node [
    id 4
    label "roof"
    graphics [
      x 120.0000000
      y 260.0000000
      w 0.000000000
      h 0.000000000
      type "rectangle"
    ]
  ]
  node [
    id 5
    label "panes"
    graphics [
      x 60.00000000
      y 180.0000000
      w 0.000000000
      h 0.000000000
      type "rectangle"
    ]
  ]
  node [
    id 6
    label "light"
    graphics [
      x 160.0000000
      y 180.0000000
      w 0.000000000
      h 0.000000000
      type "rectangle"
    ]
  ]
  node [
    id 7
    label "in"
    graphics [
      x 100.0000000
      y 100.0000000
      w 0.000000000
      h 0.000000000
      type "rectangle"
    ]
  ]
  edge [
    source 0
    target 1
    graphics [
      type "line"
      arrow "last"
      weight 1.000000000
    ]
  ]
  edge [
    source 0
    target 2
    graphics [
      type "line"
      arrow "last"
      weight 1.000000000
    ]
  ]
  edge [
    source 1
    target 5
    graphics [
      type "line"
      arrow "last"
      weight 1.000000000
    ]
  ]
  edge [
    source 1
    target 3
    graphics [
      type "line"
      arrow "last"
      weight 1.000000000
    ]
  ]
  edge [
    source 2
    target 3
    graphics [
      type "line"
      arrow "last"
      weight 1.000000000
    ]
  ]
  edge [
    source 3
    target 4
    graphics [
      type "line"
      arrow "last"
      weight 1.000000000
    ]
  ]
  edge [
    source 4
    target 5
    graphics [
      type "line"
      arrow "last"
      weight 1.000000000
    ]
  ]
  edge [
    source 4
    target 6
    graphics [
      type "line"
      arrow "last"
      weight 1.000000000
    ]
  ]
  edge [
    source 5
    target 7
    graphics [
      type "line"
      arrow "last"
      weight 1.000000000
    ]
  ]
  edge [
    source 6
    target 7
    graphics [
      type "line"
      arrow "last"
      weight 1.000000000
    ]
  ]
]
