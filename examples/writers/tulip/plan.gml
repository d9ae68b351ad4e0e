graph [
directed 1
version 2
node [
id 0
label "go"
graphics [
x 100
y -500
z 0
h 1
w 1
d 1
type "rectangle"
width 0.12
fill "#ff0000"
outline "#000000"
     ]
]
node [
id 1
label "plan"
graphics [
x 60
y -420
z 0
h 1
w 1
d 1
type "rectangle"
width 0.12
fill "#ff0000"
outline "#000000"
     ]
]
node [
id 2
label "site"
graphics [
x 160
y -420
z 0
h 1
w 1
d 1
type "rectangle"
width 0.12
fill "#ff0000"
outline "#000000"
     ]
]
node [
id 3
label "base"
graphics [
x 120
y -340
z 0
h 1
w 1
d 1
type "rectangle"
width 0.12
fill "#ff0000"
outline "#000000"
     ]
]
node [
id 4
label "roof"
graphics [
x 120
y -260
z 0
h 1
w 1
d 1
type "rectangle"
width 0.12
fill "#ff0000"
outline "#000000"
     ]
]
node [
id 5
label "panes"
graphics [
x 60
y -180
z 0
h 1
w 1
d 1
type "rectangle"
width 0.12
fill "#ff0000"
outline "#000000"
     ]
]
node [
id 6
label "light"
graphics [
x 160
y -180
z 0
h 1
w 1
d 1
type "rectangle"
width 0.12
fill "#ff0000"
outline "#000000"
     ]
]
node [
id 7
label "in"
graphics [
x 100
y -100
z 0
h 1
w 1
d 1
type "rectangle"
width 0.12
fill "#ff0000"
outline "#000000"
     ]
]
edge [
source 0
target 1
id 0
label ""
graphics [
type "line"
arrow "last"
width 0.1
Line [
]
]
]
edge [
source 0
target 2
id 1
label ""
graphics [
type "line"
arrow "last"
width 0.1
Line [
]
]
]
edge [
source 1
target 5
id 2
label ""
graphics [
type "line"
arrow "last"
width 0.1
Line [
]
]
]
edge [
source 1
target 3
id 3
label ""
graphics [
type "line"
arrow "last"
width 0.1
Line [
]
]
]
edge [
source 2
target 3
id 4
label ""
graphics [
type "line"
arrow "last"
width 0.1
Line [
]
]
]
edge [
source 3
target 4
id 5
label ""
graphics [
type "line"
arrow "last"
width 0.1
Line [
]
]
]
edge [
source 4
target 5
id 6
label ""
graphics [
type "line"
arrow "last"
width 0.1
Line [
]
]
]
edge [
source 4
target 6
id 7
label ""
graphics [
type "line"
arrow "last"
width 0.1
Line [
]
]
]
edge [
source 5
target 7
id 8
label ""
graphics [
type "line"
arrow "last"
width 0.1
Line [
]
]
]
edge [
source 6
target 7
id 9
label ""
graphics [
type "line"
arrow "last"
width 0.1
Line [
]
]
]
]
