graph [
  version 2
  directed 1
  bb "0,0,270.09,252"
  rankdir "BT"
  node [
    id 0
    name "n0"
    label "a "quoted" name"
    graphics [
      x 145.44
      y 18
      w 176.782
      H 36
    ]
    LabelGraphics [
      text "a "quoted" name"
    ]
  ]
  node [
    id 1
    name "n1"
    label "Größe & Maß"
    graphics [
      x 73.443
      y 90
      w 146.887
      H 36
    ]
    LabelGraphics [
      text "Größe & Maß"
    ]
  ]
  node [
    id 2
    name "n2"
    label "list [of] 3"
    graphics [
      x 217.44
      y 90
      w 105.293
      H 36
    ]
    LabelGraphics [
      text "list [of] 3"
    ]
  ]
  node [
    id 3
    name "n3"
    label "semi; colon # 5"
    graphics [
      x 145.44
      y 162
      w 165.089
      H 36
    ]
    LabelGraphics [
      text "semi; colon # 5"
    ]
  ]
  node [
    id 4
    name "n4"
    label "yes / no (?)"
    graphics [
      x 145.44
      y 234
      w 122.191
      H 36
    ]
    LabelGraphics [
      text "yes / no (?)"
    ]
  ]
  edge [
    id 1
    source 0
    target 1
    weight 1
    graphics [
      Line [
        point [ x 128.01 y 35.945 ]
        point [ x 118.99 y 44.715 ]
        point [ x 107.83 y 55.568 ]
        point [ x 97.956 y 65.169 ]
        point [ x 90.712 y 72.211 ]
      ]
    ]
  ]
  edge [
    id 2
    source 0
    target 2
    weight 1
    graphics [
      Line [
        point [ x 162.87 y 35.945 ]
        point [ x 172.03 y 44.844 ]
        point [ x 183.39 y 55.888 ]
        point [ x 193.37 y 65.592 ]
        point [ x 200.67 y 72.693 ]
      ]
    ]
  ]
  edge [
    id 3
    source 1
    target 3
    weight 1
    graphics [
      Line [
        point [ x 90.506 y 107.59 ]
        point [ x 99.52 y 116.35 ]
        point [ x 110.75 y 127.27 ]
        point [ x 120.7 y 136.94 ]
        point [ x 128 y 144.04 ]
      ]
    ]
  ]
  edge [
    id 4
    source 2
    target 3
    weight 1
    graphics [
      Line [
        point [ x 200.74 y 107.24 ]
        point [ x 191.61 y 116.12 ]
        point [ x 180.12 y 127.29 ]
        point [ x 169.98 y 137.15 ]
        point [ x 162.55 y 144.37 ]
      ]
    ]
  ]
  edge [
    id 5
    source 3
    target 4
    weight 1
    graphics [
      Line [
        point [ x 145.44 y 180.3 ]
        point [ x 145.44 y 188.02 ]
        point [ x 145.44 y 197.29 ]
        point [ x 145.44 y 205.89 ]
        point [ x 145.44 y 215.9 ]
      ]
    ]
  ]
]
