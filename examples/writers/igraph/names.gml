Creator "igraph version 0.10.2 Tue Dec  1 23:47:48 2026"
Version 1
graph
[
  directed 1
  node
  [
    id 0
    name "a &quot;quoted&quot; name"
    label "a &quot;quoted&quot; name"
  ]
  node
  [
    id 1
    name "Größe &amp; Maß"
    label "Größe &amp; Maß"
  ]
  node
  [
    id 2
    name "list [of] 3"
    label "list [of] 3"
  ]
  node
  [
    id 3
    name "semi; colon # 5"
    label "semi; colon # 5"
  ]
  node
  [
    id 4
    name "yes / no (?)"
    label "yes / no (?)"
  ]
  edge
  [
    source 0
    target 1
    weight 1
  ]
  edge
  [
    source 0
    target 2
    weight 1
  ]
  edge
  [
    source 1
    target 3
    weight 1
  ]
  edge
  [
    source 2
    target 3
    weight 1
  ]
  edge
  [
    source 3
    target 4
    weight 1
  ]
]
