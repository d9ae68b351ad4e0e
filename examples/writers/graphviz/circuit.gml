graph [
  version 2
  directed 1
  bb "0,0,144.04,252"
  rankdir "BT"
  node [
    id 0
    name "n0"
    label "ground"
    graphics [
      x 99.846
      y 18
      w 88.3944
      H 36
    ]
    LabelGraphics [
      text "ground"
    ]
  ]
  node [
    id 1
    name "n1"
    label "a"
    graphics [
      x 99.846
      y 90
      w 54
      H 36
    ]
    LabelGraphics [
      text "a"
    ]
  ]
  node [
    id 2
    name "n2"
    label "b"
    graphics [
      x 44.846
      y 162
      w 54
      H 36
    ]
    LabelGraphics [
      text "b"
    ]
  ]
  node [
    id 3
    name "n3"
    label "battery"
    graphics [
      x 44.846
      y 234
      w 89.6904
      H 36
    ]
    LabelGraphics [
      text "battery"
    ]
  ]
  edge [
    id 1
    source 0
    target 1
    weight 4
    graphics [
      Line [
        point [ x 93.968 y 35.945 ]
        point [ x 93.137 y 43.769 ]
        point [ x 92.9 y 53.252 ]
        point [ x 93.256 y 62.023 ]
        point [ x 93.984 y 72.211 ]
      ]
    ]
  ]
  edge [
    id 2
    source 0
    target 1
    weight 1
    graphics [
      Line [
        point [ x 105.72 y 35.945 ]
        point [ x 106.55 y 43.769 ]
        point [ x 106.79 y 53.252 ]
        point [ x 106.44 y 62.023 ]
        point [ x 105.71 y 72.211 ]
      ]
    ]
  ]
  edge [
    id 3
    source 0
    target 2
    weight 1
    graphics [
      Line [
        point [ x 86.394 y 35.214 ]
        point [ x 78.718 y 45.241 ]
        point [ x 69.524 y 58.701 ]
        point [ x 63.846 y 72 ]
        point [ x 55.381 y 91.828 ]
        point [ x 50.542 y 115.8 ]
        point [ x 47.869 y 133.87 ]
        point [ x 46.502 y 144.01 ]
      ]
    ]
  ]
  edge [
    id 4
    source 1
    target 2
    weight 1
    graphics [
      Line [
        point [ x 87.912 y 106.19 ]
        point [ x 80.632 y 115.45 ]
        point [ x 71.183 y 127.48 ]
        point [ x 62.992 y 137.91 ]
        point [ x 56.757 y 145.84 ]
      ]
    ]
  ]
  edge [
    id 5
    source 1
    target 3
    weight 1
    graphics [
      Line [
        point [ x 98.19 y 107.99 ]
        point [ x 95.956 y 126.35 ]
        point [ x 91.02 y 156.17 ]
        point [ x 80.846 y 180 ]
        point [ x 76.588 y 189.97 ]
        point [ x 70.351 y 200.04 ]
        point [ x 64.261 y 208.68 ]
        point [ x 58.298 y 216.79 ]
      ]
    ]
  ]
  edge [
    id 6
    source 2
    target 3
    weight 3
    graphics [
      Line [
        point [ x 39.006 y 179.59 ]
        point [ x 38.144 y 187.49 ]
        point [ x 37.894 y 197.15 ]
        point [ x 38.258 y 206.06 ]
        point [ x 38.967 y 216.04 ]
      ]
    ]
  ]
  edge [
    id 7
    source 2
    target 3
    weight 1
    graphics [
      Line [
        point [ x 50.686 y 179.59 ]
        point [ x 51.549 y 187.49 ]
        point [ x 51.798 y 197.15 ]
        point [ x 51.434 y 206.06 ]
        point [ x 50.725 y 216.04 ]
      ]
    ]
  ]
]
