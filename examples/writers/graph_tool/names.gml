graph [
   directed 1
   node [
      id 0
      label "a \"quoted\" name"
   ]
   node [
      id 1
      label "Größe & Maß"
   ]
   node [
      id 2
      label "list [of] 3"
   ]
   node [
      id 3
      label "semi; colon # 5"
   ]
   node [
      id 4
      label "yes / no (?)"
   ]
   edge [
      id 0
      source 0
      target 1
      weight 1
   ]
   edge [
      id 1
      source 0
      target 2
      weight 1
   ]
   edge [
      id 2
      source 1
      target 3
      weight 1
   ]
   edge [
      id 3
      source 2
      target 3
      weight 1
   ]
   edge [
      id 4
      source 3
      target 4
      weight 1
   ]
]
