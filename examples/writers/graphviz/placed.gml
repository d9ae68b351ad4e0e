graph [
  version 2
  directed 1
  bb "0,0,241.8,252"
  rankdir "BT"
  node [
    id 0
    name "n0"
    label "bottom"
    graphics [
      x 114
      y 18
      w 88.3944
      H 36
    ]
    LabelGraphics [
      text "bottom"
    ]
  ]
  node [
    id 1
    name "n1"
    label "left"
    graphics [
      x 27
      y 90
      w 54
      H 36
    ]
    LabelGraphics [
      text "left"
    ]
  ]
  node [
    id 2
    name "n2"
    label "middle"
    graphics [
      x 114
      y 90
      w 84.492
      H 36
    ]
    LabelGraphics [
      text "middle"
    ]
  ]
  node [
    id 3
    name "n3"
    label "right"
    graphics [
      x 208
      y 90
      w 67.5943
      H 36
    ]
    LabelGraphics [
      text "right"
    ]
  ]
  node [
    id 4
    name "n4"
    label "join"
    graphics [
      x 73
      y 162
      w 55.895
      H 36
    ]
    LabelGraphics [
      text "join"
    ]
  ]
  node [
    id 5
    name "n5"
    label "other"
    graphics [
      x 155
      y 162
      w 71.4938
      H 36
    ]
    LabelGraphics [
      text "other"
    ]
  ]
  node [
    id 6
    name "n6"
    label "top"
    graphics [
      x 114
      y 234
      w 54
      H 36
    ]
    LabelGraphics [
      text "top"
    ]
  ]
  edge [
    id 1
    source 0
    target 1
    weight 1
    graphics [
      Line [
        point [ x 94.692 y 34.535 ]
        point [ x 82.006 y 44.742 ]
        point [ x 65.296 y 58.187 ]
        point [ x 51.652 y 69.165 ]
        point [ x 43.617 y 75.63 ]
      ]
    ]
  ]
  edge [
    id 2
    source 0
    target 2
    weight 1
    graphics [
      Line [
        point [ x 114 y 36.303 ]
        point [ x 114 y 44.017 ]
        point [ x 114 y 53.288 ]
        point [ x 114 y 61.888 ]
        point [ x 114 y 71.896 ]
      ]
    ]
  ]
  edge [
    id 3
    source 0
    target 3
    weight 1
    graphics [
      Line [
        point [ x 134.4 y 34.189 ]
        point [ x 147.94 y 44.273 ]
        point [ x 165.87 y 57.628 ]
        point [ x 180.65 y 68.631 ]
        point [ x 188.92 y 74.795 ]
      ]
    ]
  ]
  edge [
    id 4
    source 1
    target 4
    weight 1
    graphics [
      Line [
        point [ x 37.438 y 106.88 ]
        point [ x 43.202 y 115.66 ]
        point [ x 50.484 y 126.74 ]
        point [ x 56.955 y 136.58 ]
        point [ x 62.603 y 145.18 ]
      ]
    ]
  ]
  edge [
    id 5
    source 2
    target 4
    weight 1
    graphics [
      Line [
        point [ x 104.28 y 107.59 ]
        point [ x 99.259 y 116.17 ]
        point [ x 93.026 y 126.81 ]
        point [ x 87.449 y 136.33 ]
        point [ x 82.364 y 145.01 ]
      ]
    ]
  ]
  edge [
    id 6
    source 2
    target 5
    weight 1
    graphics [
      Line [
        point [ x 123.72 y 107.59 ]
        point [ x 128.62 y 115.96 ]
        point [ x 134.67 y 126.29 ]
        point [ x 140.14 y 135.63 ]
        point [ x 145.35 y 144.53 ]
      ]
    ]
  ]
  edge [
    id 7
    source 3
    target 5
    weight 1
    graphics [
      Line [
        point [ x 195.97 y 106.88 ]
        point [ x 189.36 y 115.62 ]
        point [ x 181.01 y 126.65 ]
        point [ x 173.58 y 136.46 ]
        point [ x 167.35 y 144.69 ]
      ]
    ]
  ]
  edge [
    id 8
    source 4
    target 6
    weight 1
    graphics [
      Line [
        point [ x 82.509 y 179.24 ]
        point [ x 87.529 y 187.81 ]
        point [ x 93.796 y 198.51 ]
        point [ x 99.415 y 208.1 ]
        point [ x 104.54 y 216.85 ]
      ]
    ]
  ]
  edge [
    id 9
    source 5
    target 6
    weight 1
    graphics [
      Line [
        point [ x 145.28 y 179.59 ]
        point [ x 140.26 y 188.17 ]
        point [ x 134.03 y 198.81 ]
        point [ x 128.45 y 208.33 ]
        point [ x 123.36 y 217.01 ]
      ]
    ]
  ]
]
