graph [
directed 1
version 2
node [
id 0
label "a \"quoted\" name"
graphics [
x 100
y -400
z 0
h 1
w 1
d 1
type "rectangle"
width 0.12
fill "#ff0000"
outline "#000000"
     ]
]
node [
id 1
label "Größe & Maß"
graphics [
x 60
y -300
z 0
h 1
w 1
d 1
type "rectangle"
width 0.12
fill "#ff0000"
outline "#000000"
     ]
]
node [
id 2
label "list [of] 3"
graphics [
x 140
y -300
z 0
h 1
w 1
d 1
type "rectangle"
width 0.12
fill "#ff0000"
outline "#000000"
     ]
]
node [
id 3
label "semi; colon # 5"
graphics [
x 100
y -200
z 0
h 1
w 1
d 1
type "rectangle"
width 0.12
fill "#ff0000"
outline "#000000"
     ]
]
node [
id 4
label "yes / no (?)"
graphics [
x 100
y -100
z 0
h 1
w 1
d 1
type "rectangle"
width 0.12
fill "#ff0000"
outline "#000000"
     ]
]
edge [
source 0
target 1
id 0
label ""
graphics [
type "line"
arrow "last"
width 0.1
Line [
]
]
]
edge [
source 0
target 2
id 1
label ""
graphics [
type "line"
arrow "last"
width 0.1
Line [
]
]
]
edge [
source 1
target 3
id 2
label ""
graphics [
type "line"
arrow "last"
width 0.1
Line [
]
]
]
edge [
source 2
target 3
id 3
label ""
graphics [
type "line"
arrow "last"
width 0.1
Line [
]
]
]
edge [
source 3
target 4
id 4
label ""
graphics [
type "line"
arrow "last"
width 0.1
Line [
]
]
]
]
