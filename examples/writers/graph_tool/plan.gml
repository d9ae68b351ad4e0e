graph [
   directed 1
   node [
      id 0
      label "go"
   ]
   node [
      id 1
      label "plan"
   ]
   node [
      id 2
      label "site"
   ]
   node [
      id 3
      label "base"
   ]
   node [
      id 4
      label "roof"
   ]
   node [
      id 5
      label "panes"
   ]
   node [
      id 6
      label "light"
   ]
   node [
      id 7
      label "in"
   ]
   edge [
      id 0
      source 0
      target 1
      weight 2
   ]
   edge [
      id 1
      source 0
      target 2
      weight 1
   ]
   edge [
      id 2
      source 1
      target 5
      weight 6
   ]
   edge [
      id 3
      source 1
      target 3
      weight 1
   ]
   edge [
      id 4
      source 2
      target 3
      weight 3
   ]
   edge [
      id 5
      source 3
      target 4
      weight 4
   ]
   edge [
      id 6
      source 4
      target 5
      weight 1
   ]
   edge [
      id 7
      source 4
      target 6
      weight 2
   ]
   edge [
      id 8
      source 5
      target 7
      weight 2
   ]
   edge [
      id 9
      source 6
      target 7
      weight 2
   ]
]
