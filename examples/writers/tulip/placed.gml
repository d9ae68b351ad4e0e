graph [
directed 1
version 2
node [
id 0
label "bottom"
graphics [
x 100
y -500
z 0
h 1
w 1
d 1
type "rectangle"
width 0.12
fill "#ff0000"
outline "#000000"
     ]
]
node [
id 1
label "left"
graphics [
x 40
y -400
z 0
h 1
w 1
d 1
type "rectangle"
width 0.12
fill "#ff0000"
outline "#000000"
     ]
]
node [
id 2
label "middle"
graphics [
x 100
y -380
z 0
h 1
w 1
d 1
type "rectangle"
width 0.12
fill "#ff0000"
outline "#000000"
     ]
]
node [
id 3
label "right"
graphics [
x 160
y -400
z 0
h 1
w 1
d 1
type "rectangle"
width 0.12
fill "#ff0000"
outline "#000000"
     ]
]
node [
id 4
label "join"
graphics [
x 80
y -280
z 0
h 1
w 1
d 1
type "rectangle"
width 0.12
fill "#ff0000"
outline "#000000"
     ]
]
node [
id 5
label "other"
graphics [
x 180
y -280
z 0
h 1
w 1
d 1
type "rectangle"
width 0.12
fill "#ff0000"
outline "#000000"
     ]
]
node [
id 6
label "top"
graphics [
x 110
y -180
z 0
h 1
w 1
d 1
type "rectangle"
width 0.12
fill "#ff0000"
outline "#000000"
     ]
]
edge [
source 3
target 5
id 0
label ""
graphics [
type "line"
arrow "last"
width 0.1
Line [
]
]
]
edge [
source 2
target 4
id 1
label ""
graphics [
type "line"
arrow "last"
width 0.1
Line [
]
]
]
edge [
source 0
target 2
id 2
label ""
graphics [
type "line"
arrow "last"
width 0.1
Line [
]
]
]
edge [
source 4
target 6
id 3
label ""
graphics [
type "line"
arrow "last"
width 0.1
Line [
]
]
]
edge [
source 0
target 3
id 4
label ""
graphics [
type "line"
arrow "last"
width 0.1
Line [
]
]
]
edge [
source 1
target 4
id 5
label ""
graphics [
type "line"
arrow "last"
width 0.1
Line [
]
]
]
edge [
source 5
target 6
id 6
label ""
graphics [
type "line"
arrow "last"
width 0.1
Line [
]
]
]
edge [
source 0
target 1
id 7
label ""
graphics [
type "line"
arrow "last"
width 0.1
Line [
]
]
]
edge [
source 2
target 5
id 8
label ""
graphics [
type "line"
arrow "last"
width 0.1
Line [
]
]
]
]
