Creator "ogdf::GraphIO::writeGML"
graph [
  directed 1
  node [
    id 0
    label "a \"quoted\" name"
    graphics [
      x 100.0000000
      y 400.0000000
      w 0.000000000
      h 0.000000000
      type "rectangle"
    ]
  ]
  node [
    id 1
    label "Größe & Maß"
    graphics [
      x 60.00000000
      y 300.0000000
      w 0.000000000
      h 0.000000000
      type "rectangle"
    ]
  ]
  node [
    id 2
    label "list [of] 3"
    graphics [
      x 140.0000000
      y 300.0000000
      w 0.000000000
      h 0.000000000
      type "rectangle"
    ]
  ]
  node [
    id 3
    label "semi; colon # 5"
    graphics [
      x 100.0000000
      y 200.0000000
      w 0.000000000
      h 0.000000000
      type "rectangle"
    ]
  ]
  node [
    id 4
    label "yes / no (?)"
    graphics [
      x 100.0000000
      y 100.0000000
      w 0.000000000
      h 0.000000000
      type "rectangle"
    ]
  ]
  edge [
    source 0
    target 1
    graphics [
      type "line"
      arrow "last"
      weight 1.000000000
    ]
  ]
  edge [
    source 0
    target 2
    graphics [
      type "line"
      arrow "last"
      weight 1.000000000
    ]
  ]
  edge [
    source 1
    target 3
    graphics [
      type "line"
      arrow "last"
      weight 1.000000000
    ]
  ]
  edge [
    source 2
    target 3
    graphics [
      type "line"
      arrow "last"
      weight 1.000000000
    ]
  ]
  edge [
    source 3
    target 4
    graphics [
      type "line"
      arrow "last"
      weight 1.000000000
    ]
  ]
]
