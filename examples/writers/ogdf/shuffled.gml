Creator "ogdf::GraphIO::writeGML"
graph [
  directed 1
  node [
    id 0
    label "1"
    graphics [
      x 100.0000000
      y 600.0000000
      w 0.000000000
      h 0.000000000
      type "rectangle"
    ]
  ]
  node [
    id 1
    label "2"
    graphics [
      x 40.00000000
      y 500.0000000
      w 0.000000000
      h 0.000000000
      type "rectangle"
    ]
  ]
  node [
    id 2
    label "3"
    graphics [
      x 100.0000000
      y 500.0000000
      w 0.000000000
      h 0.000000000
      type "rectangle"
    ]
  ]
  node [
    id 3
    label "4"
    graphics [
      x 180.0000000
      y 500.0000000
      w 0.000000000
      h 0.000000000
      type "rectangle"
    ]
  ]
  node [
    id 4
    label "5"
    graphics [
      x 60.00000000
      y 400.0000000
      w 0.000000000
      h 0.000000000
      type "rectangle"
    ]
  ]
  node [
    id 5
    label "6"
    graphics [
      x 140.0000000
      y 400.0000000
      w 0.000000000
      h 0.000000000
      type "rectangle"
    ]
  ]
  node [
    id 6
    label "7"
    graphics [
      x 220.0000000
      y 400.0000000
      w 0.000000000
      h 0.000000000
      type "rectangle"
    ]
  ]
  node [
    id 7
    label "8"
    graphics [
      x 40.00000000
      y 300.0000000
      w 0.000000000
      h 0.000000000
      type "rectangle"
    ]
  ]
  node [
    id 8
    label "9"
    graphics [
      x 120.0000000
      y 300.0000000
      w 0.000000000
      h 0.000000000
      type "rectangle"
    ]
  ]
  node [
    id 9
    label "10"
    graphics [
      x 200.0000000
      y 300.0000000
      w 0.000000000
      h 0.000000000
      type "rectangle"
    ]
  ]
  node [
    id 10
    label "11"
    graphics [
      x 100.0000000
      y 200.0000000
      w 0.000000000
      h 0.000000000
      type "rectangle"
    ]
  ]
  node [
    id 11
    label "12"
    graphics [
      x 120.0000000
      y 100.0000000
      w 0.000000000
      h 0.000000000
      type "rectangle"
    ]
  ]
  edge [
    source 5
    target 9
    graphics [
      type "line"
      arrow "last"
      weight 1.000000000
    ]
  ]
  edge [
    source 0
    target 3
    graphics [
      type "line"
      arrow "last"
      weight 1.000000000
    ]
  ]
  edge [
    source 8
    target 10
    graphics [
      type "line"
      arrow "last"
      weight 1.000000000
    ]
  ]
  edge [
    source 2
    target 5
    graphics [
      type "line"
      arrow "last"
      weight 1.000000000
    ]
  ]
  edge [
    source 0
    target 1
    graphics [
      type "line"
      arrow "last"
      weight 1.000000000
    ]
  ]
  edge [
    source 4
    target 7
    graphics [
      type "line"
      arrow "last"
      weight 1.000000000
    ]
  ]
  edge [
    source 3
    target 6
    graphics [
      type "line"
      arrow "last"
      weight 1.000000000
    ]
  ]
  edge [
    source 10
    target 11
    graphics [
      type "line"
      arrow "last"
      weight 1.000000000
    ]
  ]
  edge [
    source 1
    target 4
    graphics [
      type "line"
      arrow "last"
      weight 1.000000000
    ]
  ]
  edge [
    source 6
    target 9
    graphics [
      type "line"
      arrow "last"
      weight 1.000000000
    ]
  ]
  edge [
    source 2
    target 4
    graphics [
      type "line"
      arrow "last"
      weight 1.000000000
    ]
  ]
  edge [
    source 7
    target 10
    graphics [
      type "line"
      arrow "last"
      weight 1.000000000
    ]
  ]
  edge [
    source 0
    target 2
    graphics [
      type "line"
      arrow "last"
      weight 1.000000000
    ]
  ]
  edge [
    source 4
    target 8
    graphics [
      type "line"
      arrow "last"
      weight 1.000000000
    ]
  ]
  edge [
    source 9
    target 11
    graphics [
      type "line"
      arrow "last"
      weight 1.000000000
    ]
  ]
  edge [
    source 3
    target 5
    graphics [
      type "line"
      arrow "last"
      weight 1.000000000
    ]
  ]
  edge [
    source 5
    target 8
    graphics [
      type "line"
      arrow "last"
      weight 1.000000000
    ]
  ]
]
