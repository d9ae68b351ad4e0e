# A small flow chart: who orders, and what comes of it.
graph [
  directed 1
  node [ id 1 label "order comes in" ]
  node [ id 2 label "in stock?" ]
  node [ id 3 label "ship" ]
  node [ id 4 label "order from the maker" ]
  node [ id 5 label "tell the customer" ]
  node [ id 6 label "send the bill" ]
  edge [ source 1 target 2 ]
  edge [ source 2 target 3 label "yes" ]
  edge [ source 2 target 4 label "no" ]
  edge [ source 3 target 6 ]
  edge [ source 4 target 5 ]
  edge [ source 5 target 6 ]
]
