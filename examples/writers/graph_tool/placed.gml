graph [
   directed 1
   node [
      id 0
      label "bottom"
   ]
   node [
      id 1
      label "left"
   ]
   node [
      id 2
      label "middle"
   ]
   node [
      id 3
      label "right"
   ]
   node [
      id 4
      label "join"
   ]
   node [
      id 5
      label "other"
   ]
   node [
      id 6
      label "top"
   ]
   edge [
      id 0
      source 0
      target 2
      weight 1
   ]
   edge [
      id 1
      source 0
      target 3
      weight 1
   ]
   edge [
      id 2
      source 0
      target 1
      weight 1
   ]
   edge [
      id 3
      source 1
      target 4
      weight 1
   ]
   edge [
      id 4
      source 2
      target 4
      weight 1
   ]
   edge [
      id 5
      source 2
      target 5
      weight 1
   ]
   edge [
      id 6
      source 3
      target 5
      weight 1
   ]
   edge [
      id 7
      source 4
      target 6
      weight 1
   ]
   edge [
      id 8
      source 5
      target 6
      weight 1
   ]
]
