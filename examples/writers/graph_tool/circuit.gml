graph [
   directed 1
   node [
      id 0
      label "ground"
   ]
   node [
      id 1
      label "a"
   ]
   node [
      id 2
      label "b"
   ]
   node [
      id 3
      label "battery"
   ]
   edge [
      id 0
      source 0
      target 1
      weight 4.5
   ]
   edge [
      id 1
      source 0
      target 1
      weight inf
   ]
   edge [
      id 2
      source 0
      target 2
      weight 1.5
   ]
   edge [
      id 3
      source 1
      target 2
      weight 0.25
   ]
   edge [
      id 4
      source 1
      target 3
      weight 1e-07
   ]
   edge [
      id 5
      source 2
      target 3
      weight 3
   ]
   edge [
      id 6
      source 2
      target 3
      weight inf
   ]
]
