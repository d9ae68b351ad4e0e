graph [
  version 2
  directed 1
  bb "0,0,198,396"
  rankdir "BT"
  node [
    id 0
    name "n0"
    label 1
    graphics [
      x 99
      y 18
      w 54
      H 36
    ]
    LabelGraphics [
      text 1
    ]
  ]
  node [
    id 1
    name "n1"
    label 2
    graphics [
      x 27
      y 90
      w 54
      H 36
    ]
    LabelGraphics [
      text 2
    ]
  ]
  node [
    id 2
    name "n2"
    label 3
    graphics [
      x 99
      y 90
      w 54
      H 36
    ]
    LabelGraphics [
      text 3
    ]
  ]
  node [
    id 3
    name "n3"
    label 4
    graphics [
      x 171
      y 90
      w 54
      H 36
    ]
    LabelGraphics [
      text 4
    ]
  ]
  node [
    id 4
    name "n4"
    label 5
    graphics [
      x 27
      y 162
      w 54
      H 36
    ]
    LabelGraphics [
      text 5
    ]
  ]
  node [
    id 5
    name "n5"
    label 6
    graphics [
      x 99
      y 162
      w 54
      H 36
    ]
    LabelGraphics [
      text 6
    ]
  ]
  node [
    id 6
    name "n6"
    label 7
    graphics [
      x 171
      y 162
      w 54
      H 36
    ]
    LabelGraphics [
      text 7
    ]
  ]
  node [
    id 7
    name "n7"
    label 8
    graphics [
      x 27
      y 234
      w 54
      H 36
    ]
    LabelGraphics [
      text 8
    ]
  ]
  node [
    id 8
    name "n8"
    label 9
    graphics [
      x 99
      y 234
      w 54
      H 36
    ]
    LabelGraphics [
      text 9
    ]
  ]
  node [
    id 9
    name "n9"
    label 10
    graphics [
      x 171
      y 234
      w 54
      H 36
    ]
    LabelGraphics [
      text 10
    ]
  ]
  node [
    id 10
    name "n10"
    label 11
    graphics [
      x 99
      y 306
      w 54
      H 36
    ]
    LabelGraphics [
      text 11
    ]
  ]
  node [
    id 11
    name "n11"
    label 12
    graphics [
      x 126
      y 378
      w 54
      H 36
    ]
    LabelGraphics [
      text 12
    ]
  ]
  edge [
    id 1
    source 0
    target 1
    weight 1
    graphics [
      Line [
        point [ x 84.43 y 33.166 ]
        point [ x 74.25 y 43.062 ]
        point [ x 60.476 y 56.454 ]
        point [ x 48.969 y 67.641 ]
        point [ x 41.796 y 74.615 ]
      ]
    ]
  ]
  edge [
    id 2
    source 0
    target 2
    weight 1
    graphics [
      Line [
        point [ x 99 y 36.303 ]
        point [ x 99 y 44.017 ]
        point [ x 99 y 53.288 ]
        point [ x 99 y 61.888 ]
        point [ x 99 y 71.896 ]
      ]
    ]
  ]
  edge [
    id 3
    source 0
    target 3
    weight 1
    graphics [
      Line [
        point [ x 113.57 y 33.166 ]
        point [ x 123.75 y 43.062 ]
        point [ x 137.52 y 56.454 ]
        point [ x 149.03 y 67.641 ]
        point [ x 156.2 y 74.615 ]
      ]
    ]
  ]
  edge [
    id 4
    source 1
    target 4
    weight 1
    graphics [
      Line [
        point [ x 27 y 108.3 ]
        point [ x 27 y 116.02 ]
        point [ x 27 y 125.29 ]
        point [ x 27 y 133.89 ]
        point [ x 27 y 143.9 ]
      ]
    ]
  ]
  edge [
    id 5
    source 2
    target 4
    weight 1
    graphics [
      Line [
        point [ x 84.43 y 105.17 ]
        point [ x 74.25 y 115.06 ]
        point [ x 60.476 y 128.45 ]
        point [ x 48.969 y 139.64 ]
        point [ x 41.796 y 146.62 ]
      ]
    ]
  ]
  edge [
    id 6
    source 2
    target 5
    weight 1
    graphics [
      Line [
        point [ x 99 y 108.3 ]
        point [ x 99 y 116.02 ]
        point [ x 99 y 125.29 ]
        point [ x 99 y 133.89 ]
        point [ x 99 y 143.9 ]
      ]
    ]
  ]
  edge [
    id 7
    source 3
    target 5
    weight 1
    graphics [
      Line [
        point [ x 156.43 y 105.17 ]
        point [ x 146.25 y 115.06 ]
        point [ x 132.48 y 128.45 ]
        point [ x 120.97 y 139.64 ]
        point [ x 113.8 y 146.62 ]
      ]
    ]
  ]
  edge [
    id 8
    source 3
    target 6
    weight 1
    graphics [
      Line [
        point [ x 171 y 108.3 ]
        point [ x 171 y 116.02 ]
        point [ x 171 y 125.29 ]
        point [ x 171 y 133.89 ]
        point [ x 171 y 143.9 ]
      ]
    ]
  ]
  edge [
    id 9
    source 4
    target 7
    weight 1
    graphics [
      Line [
        point [ x 27 y 180.3 ]
        point [ x 27 y 188.02 ]
        point [ x 27 y 197.29 ]
        point [ x 27 y 205.89 ]
        point [ x 27 y 215.9 ]
      ]
    ]
  ]
  edge [
    id 10
    source 4
    target 8
    weight 1
    graphics [
      Line [
        point [ x 41.57 y 177.17 ]
        point [ x 51.75 y 187.06 ]
        point [ x 65.524 y 200.45 ]
        point [ x 77.031 y 211.64 ]
        point [ x 84.204 y 218.62 ]
      ]
    ]
  ]
  edge [
    id 11
    source 5
    target 8
    weight 1
    graphics [
      Line [
        point [ x 99 y 180.3 ]
        point [ x 99 y 188.02 ]
        point [ x 99 y 197.29 ]
        point [ x 99 y 205.89 ]
        point [ x 99 y 215.9 ]
      ]
    ]
  ]
  edge [
    id 12
    source 5
    target 9
    weight 1
    graphics [
      Line [
        point [ x 113.57 y 177.17 ]
        point [ x 123.75 y 187.06 ]
        point [ x 137.52 y 200.45 ]
        point [ x 149.03 y 211.64 ]
        point [ x 156.2 y 218.62 ]
      ]
    ]
  ]
  edge [
    id 13
    source 6
    target 9
    weight 1
    graphics [
      Line [
        point [ x 171 y 180.3 ]
        point [ x 171 y 188.02 ]
        point [ x 171 y 197.29 ]
        point [ x 171 y 205.89 ]
        point [ x 171 y 215.9 ]
      ]
    ]
  ]
  edge [
    id 14
    source 7
    target 10
    weight 1
    graphics [
      Line [
        point [ x 41.57 y 249.17 ]
        point [ x 51.75 y 259.06 ]
        point [ x 65.524 y 272.45 ]
        point [ x 77.031 y 283.64 ]
        point [ x 84.204 y 290.62 ]
      ]
    ]
  ]
  edge [
    id 15
    source 8
    target 10
    weight 1
    graphics [
      Line [
        point [ x 99 y 252.3 ]
        point [ x 99 y 260.02 ]
        point [ x 99 y 269.29 ]
        point [ x 99 y 277.89 ]
        point [ x 99 y 287.9 ]
      ]
    ]
  ]
  edge [
    id 16
    source 9
    target 11
    weight 1
    graphics [
      Line [
        point [ x 165.66 y 251.85 ]
        point [ x 157.95 y 276.19 ]
        point [ x 143.61 y 321.43 ]
        point [ x 134.45 y 350.33 ]
        point [ x 131.33 y 360.18 ]
      ]
    ]
  ]
  edge [
    id 17
    source 10
    target 11
    weight 1
    graphics [
      Line [
        point [ x 105.4 y 323.59 ]
        point [ x 108.51 y 331.66 ]
        point [ x 112.33 y 341.57 ]
        point [ x 115.83 y 350.65 ]
        point [ x 119.46 y 360.04 ]
      ]
    ]
  ]
]
