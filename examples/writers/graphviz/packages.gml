graph [
  version 2
  directed 1
  bb "0,0,199.99,252"
  rankdir "BT"
  node [
    id 0
    name "n0"
    label "libc"
    graphics [
      x 59.746
      y 18
      w 54.5954
      H 36
    ]
    LabelGraphics [
      text "libc"
    ]
  ]
  node [
    id 1
    name "n2"
    label "ssl"
    graphics [
      x 55.746
      y 90
      w 54
      H 36
    ]
    LabelGraphics [
      text "ssl"
    ]
  ]
  node [
    id 2
    name "n3"
    label "png"
    graphics [
      x 132.75
      y 90
      w 57.1946
      H 36
    ]
    LabelGraphics [
      text "png"
    ]
  ]
  node [
    id 3
    name "n1"
    label "zlib"
    graphics [
      x 132.75
      y 18
      w 54.5954
      H 36
    ]
    LabelGraphics [
      text "zlib"
    ]
  ]
  node [
    id 4
    name "n4"
    label "http"
    graphics [
      x 48.746
      y 162
      w 61.0949
      H 36
    ]
    LabelGraphics [
      text "http"
    ]
  ]
  node [
    id 5
    name "n5"
    label "image"
    graphics [
      x 136.75
      y 162
      w 77.9904
      H 36
    ]
    LabelGraphics [
      text "image"
    ]
  ]
  node [
    id 6
    name "n6"
    label "browser"
    graphics [
      x 48.746
      y 234
      w 97.488
      H 36
    ]
    LabelGraphics [
      text "browser"
    ]
  ]
  node [
    id 7
    name "n7"
    label "viewer"
    graphics [
      x 157.75
      y 234
      w 84.492
      H 36
    ]
    LabelGraphics [
      text "viewer"
    ]
  ]
  edge [
    id 1
    source 0
    target 1
    weight 1
    graphics [
      Line [
        point [ x 58.757 y 36.303 ]
        point [ x 58.316 y 44.017 ]
        point [ x 57.786 y 53.288 ]
        point [ x 57.295 y 61.888 ]
        point [ x 56.723 y 71.896 ]
      ]
    ]
  ]
  edge [
    id 2
    source 0
    target 2
    weight 1
    graphics [
      Line [
        point [ x 74.518 y 33.166 ]
        point [ x 84.839 y 43.062 ]
        point [ x 98.805 y 56.454 ]
        point [ x 110.47 y 67.641 ]
        point [ x 117.74 y 74.615 ]
      ]
    ]
  ]
  edge [
    id 4
    source 1
    target 4
    weight 1
    graphics [
      Line [
        point [ x 54.015 y 108.3 ]
        point [ x 53.244 y 116.02 ]
        point [ x 52.317 y 125.29 ]
        point [ x 51.457 y 133.89 ]
        point [ x 50.456 y 143.9 ]
      ]
    ]
  ]
  edge [
    id 5
    source 2
    target 5
    weight 1
    graphics [
      Line [
        point [ x 133.73 y 108.3 ]
        point [ x 134.18 y 116.02 ]
        point [ x 134.7 y 125.29 ]
        point [ x 135.2 y 133.89 ]
        point [ x 135.77 y 143.9 ]
      ]
    ]
  ]
  edge [
    id 3
    source 3
    target 2
    weight 1
    graphics [
      Line [
        point [ x 132.75 y 36.303 ]
        point [ x 132.75 y 44.017 ]
        point [ x 132.75 y 53.288 ]
        point [ x 132.75 y 61.888 ]
        point [ x 132.75 y 71.896 ]
      ]
    ]
  ]
  edge [
    id 6
    source 4
    target 6
    weight 1
    graphics [
      Line [
        point [ x 48.746 y 180.3 ]
        point [ x 48.746 y 188.02 ]
        point [ x 48.746 y 197.29 ]
        point [ x 48.746 y 205.89 ]
        point [ x 48.746 y 215.9 ]
      ]
    ]
  ]
  edge [
    id 7
    source 5
    target 6
    weight 1
    graphics [
      Line [
        point [ x 118.08 y 177.85 ]
        point [ x 105.97 y 187.48 ]
        point [ x 89.962 y 200.21 ]
        point [ x 76.382 y 211.02 ]
        point [ x 68.296 y 217.45 ]
      ]
    ]
  ]
  edge [
    id 8
    source 5
    target 7
    weight 1
    graphics [
      Line [
        point [ x 141.83 y 179.95 ]
        point [ x 144.17 y 187.74 ]
        point [ x 147 y 197.18 ]
        point [ x 149.62 y 205.92 ]
        point [ x 152.56 y 215.72 ]
      ]
    ]
  ]
]
