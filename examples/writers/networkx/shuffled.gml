graph [
  directed 1
  multigraph 1
  node [
    id 0
    label "1"
    x 100
    y 600
  ]
  node [
    id 1
    label "2"
    x 40
    y 500
  ]
  node [
    id 2
    label "3"
    x 100
    y 500
  ]
  node [
    id 3
    label "4"
    x 180
    y 500
  ]
  node [
    id 4
    label "5"
    x 60
    y 400
  ]
  node [
    id 5
    label "6"
    x 140
    y 400
  ]
  node [
    id 6
    label "7"
    x 220
    y 400
  ]
  node [
    id 7
    label "8"
    x 40
    y 300
  ]
  node [
    id 8
    label "9"
    x 120
    y 300
  ]
  node [
    id 9
    label "10"
    x 200
    y 300
  ]
  node [
    id 10
    label "11"
    x 100
    y 200
  ]
  node [
    id 11
    label "12"
    x 120
    y 100
  ]
  edge [
    source 0
    target 3
    key 0
    weight 1.0
  ]
  edge [
    source 0
    target 1
    key 0
    weight 1.0
  ]
  edge [
    source 0
    target 2
    key 0
    weight 1.0
  ]
  edge [
    source 1
    target 4
    key 0
    weight 1.0
  ]
  edge [
    source 2
    target 5
    key 0
    weight 1.0
  ]
  edge [
    source 2
    target 4
    key 0
    weight 1.0
  ]
  edge [
    source 3
    target 6
    key 0
    weight 1.0
  ]
  edge [
    source 3
    target 5
    key 0
    weight 1.0
  ]
  edge [
    source 4
    target 7
    key 0
    weight 1.0
  ]
  edge [
    source 4
    target 8
    key 0
    weight 1.0
  ]
  edge [
    source 5
    target 9
    key 0
    weight 1.0
  ]
  edge [
    source 5
    target 8
    key 0
    weight 1.0
  ]
  edge [
    source 6
    target 9
    key 0
    weight 1.0
  ]
  edge [
    source 7
    target 10
    key 0
    weight 1.0
  ]
  edge [
    source 8
    target 10
    key 0
    weight 1.0
  ]
  edge [
    source 9
    target 11
    key 0
    weight 1.0
  ]
  edge [
    source 10
    target 11
    key 0
    weight 1.0
  ]
]
