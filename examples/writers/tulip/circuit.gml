graph [
directed 1
version 2
node [
id 0
label "ground"
graphics [
x 100
y -400
z 0
h 1
w 1
d 1
type "rectangle"
width 0.12
fill "#ff0000"
outline "#000000"
     ]
]
node [
id 1
label "a"
graphics [
x 60
y -300
z 0
h 1
w 1
d 1
type "rectangle"
width 0.12
fill "#ff0000"
outline "#000000"
     ]
]
node [
id 2
label "b"
graphics [
x 140
y -300
z 0
h 1
w 1
d 1
type "rectangle"
width 0.12
fill "#ff0000"
outline "#000000"
     ]
]
node [
id 3
label "battery"
graphics [
x 100
y -200
z 0
h 1
w 1
d 1
type "rectangle"
width 0.12
fill "#ff0000"
outline "#000000"
     ]
]
edge [
source 0
target 1
id 0
label ""
graphics [
type "line"
arrow "last"
width 0.1
Line [
]
]
]
edge [
source 0
target 1
id 1
label ""
graphics [
type "line"
arrow "last"
width 0.1
Line [
]
]
]
edge [
source 0
target 2
id 2
label ""
graphics [
type "line"
arrow "last"
width 0.1
Line [
]
]
]
edge [
source 1
target 2
id 3
label ""
graphics [
type "line"
arrow "last"
width 0.1
Line [
]
]
]
edge [
source 1
target 3
id 4
label ""
graphics [
type "line"
arrow "last"
width 0.1
Line [
]
]
]
edge [
source 2
target 3
id 5
label ""
graphics [
type "line"
arrow "last"
width 0.1
Line [
]
]
]
edge [
source 2
target 3
id 6
label ""
graphics [
type "line"
arrow "last"
width 0.1
Line [
]
]
]
]
