graph [
  version 2
  directed 1
  bb "0,0,159.84,396"
  rankdir "BT"
  node [
    id 0
    name "n0"
    label "go"
    graphics [
      x 121.5
      y 18
      w 54
      H 36
    ]
    LabelGraphics [
      text "go"
    ]
  ]
  node [
    id 1
    name "n1"
    label "plan"
    graphics [
      x 121.5
      y 90
      w 61.0949
      H 36
    ]
    LabelGraphics [
      text "plan"
    ]
  ]
  node [
    id 2
    name "n2"
    label "site"
    graphics [
      x 45.497
      y 90
      w 55.895
      H 36
    ]
    LabelGraphics [
      text "site"
    ]
  ]
  node [
    id 3
    name "n3"
    label "base"
    graphics [
      x 45.497
      y 162
      w 64.9944
      H 36
    ]
    LabelGraphics [
      text "base"
    ]
  ]
  node [
    id 4
    name "n5"
    label "panes"
    graphics [
      x 121.5
      y 306
      w 76.6944
      H 36
    ]
    LabelGraphics [
      text "panes"
    ]
  ]
  node [
    id 5
    name "n4"
    label "roof"
    graphics [
      x 45.497
      y 234
      w 58.495
      H 36
    ]
    LabelGraphics [
      text "roof"
    ]
  ]
  node [
    id 6
    name "n6"
    label "light"
    graphics [
      x 32.497
      y 306
      w 64.9944
      H 36
    ]
    LabelGraphics [
      text "light"
    ]
  ]
  node [
    id 7
    name "n7"
    label "in"
    graphics [
      x 76.497
      y 378
      w 54
      H 36
    ]
    LabelGraphics [
      text "in"
    ]
  ]
  edge [
    id 1
    source 0
    target 1
    weight 2
    graphics [
      Line [
        point [ x 121.5 y 36.303 ]
        point [ x 121.5 y 44.017 ]
        point [ x 121.5 y 53.288 ]
        point [ x 121.5 y 61.888 ]
        point [ x 121.5 y 71.896 ]
      ]
    ]
  ]
  edge [
    id 2
    source 0
    target 2
    weight 1
    graphics [
      Line [
        point [ x 106.12 y 33.166 ]
        point [ x 95.301 y 43.128 ]
        point [ x 80.64 y 56.631 ]
        point [ x 68.446 y 67.863 ]
        point [ x 60.854 y 74.856 ]
      ]
    ]
  ]
  edge [
    id 3
    source 1
    target 3
    weight 1
    graphics [
      Line [
        point [ x 105.75 y 105.5 ]
        point [ x 95.121 y 115.29 ]
        point [ x 80.907 y 128.39 ]
        point [ x 68.954 y 139.4 ]
        point [ x 61.486 y 146.27 ]
      ]
    ]
  ]
  edge [
    id 4
    source 1
    target 4
    weight 6
    graphics [
      Line [
        point [ x 121.5 y 108.15 ]
        point [ x 121.5 y 145.17 ]
        point [ x 121.5 y 232.82 ]
        point [ x 121.5 y 277.61 ]
        point [ x 121.5 y 287.77 ]
      ]
    ]
  ]
  edge [
    id 5
    source 2
    target 3
    weight 3
    graphics [
      Line [
        point [ x 45.497 y 108.3 ]
        point [ x 45.497 y 116.02 ]
        point [ x 45.497 y 125.29 ]
        point [ x 45.497 y 133.89 ]
        point [ x 45.497 y 143.9 ]
      ]
    ]
  ]
  edge [
    id 6
    source 3
    target 5
    weight 4
    graphics [
      Line [
        point [ x 45.497 y 180.3 ]
        point [ x 45.497 y 188.02 ]
        point [ x 45.497 y 197.29 ]
        point [ x 45.497 y 205.89 ]
        point [ x 45.497 y 215.9 ]
      ]
    ]
  ]
  edge [
    id 9
    source 4
    target 7
    weight 2
    graphics [
      Line [
        point [ x 110.83 y 323.59 ]
        point [ x 105.32 y 332.17 ]
        point [ x 98.477 y 342.81 ]
        point [ x 92.356 y 352.33 ]
        point [ x 86.775 y 361.01 ]
      ]
    ]
  ]
  edge [
    id 7
    source 5
    target 4
    weight 1
    graphics [
      Line [
        point [ x 61.244 y 249.5 ]
        point [ x 71.659 y 259.1 ]
        point [ x 85.516 y 271.86 ]
        point [ x 97.316 y 282.73 ]
        point [ x 104.72 y 289.54 ]
      ]
    ]
  ]
  edge [
    id 8
    source 5
    target 6
    weight 2
    graphics [
      Line [
        point [ x 42.35 y 251.95 ]
        point [ x 40.918 y 259.65 ]
        point [ x 39.188 y 268.97 ]
        point [ x 37.579 y 277.64 ]
        point [ x 35.705 y 287.72 ]
      ]
    ]
  ]
  edge [
    id 10
    source 6
    target 7
    weight 2
    graphics [
      Line [
        point [ x 42.702 y 323.24 ]
        point [ x 48.089 y 331.81 ]
        point [ x 54.815 y 342.51 ]
        point [ x 60.845 y 352.1 ]
        point [ x 66.347 y 360.85 ]
      ]
    ]
  ]
]
