graph [
  version 2
  directed 1
  node [
    id 0
    name "a"
    _draw_ "c 9 -#fffffe00"
  ]
]
