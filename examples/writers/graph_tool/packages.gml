graph [
   directed 1
   node [
      id 0
      label "libc"
   ]
   node [
      id 1
      label "zlib"
   ]
   node [
      id 2
      label "ssl"
   ]
   node [
      id 3
      label "png"
   ]
   node [
      id 4
      label "http"
   ]
   node [
      id 5
      label "image"
   ]
   node [
      id 6
      label "browser"
   ]
   node [
      id 7
      label "viewer"
   ]
   edge [
      id 0
      source 0
      target 2
      weight 1
   ]
   edge [
      id 1
      source 0
      target 3
      weight 1
   ]
   edge [
      id 2
      source 1
      target 3
      weight 1
   ]
   edge [
      id 3
      source 2
      target 4
      weight 1
   ]
   edge [
      id 4
      source 3
      target 5
      weight 1
   ]
   edge [
      id 5
      source 4
      target 6
      weight 1
   ]
   edge [
      id 6
      source 5
      target 6
      weight 1
   ]
   edge [
      id 7
      source 5
      target 7
      weight 1
   ]
]
