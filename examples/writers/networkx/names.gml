graph [
  directed 1
  multigraph 1
  node [
    id 0
    label "a &#34;quoted&#34; name"
    x 100
    y 400
  ]
  node [
    id 1
    label "Gr&#246;&#223;e &#38; Ma&#223;"
    x 60
    y 300
  ]
  node [
    id 2
    label "list [of] 3"
    x 140
    y 300
  ]
  node [
    id 3
    label "semi; colon # 5"
    x 100
    y 200
  ]
  node [
    id 4
    label "yes / no (?)"
    x 100
    y 100
  ]
  edge [
    source 0
    target 1
    key 0
    weight 1.0
  ]
  edge [
    source 0
    target 2
    key 0
    weight 1.0
  ]
  edge [
    source 1
    target 3
    key 0
    weight 1.0
  ]
  edge [
    source 2
    target 3
    key 0
    weight 1.0
  ]
  edge [
    source 3
    target 4
    key 0
    weight 1.0
  ]
]
