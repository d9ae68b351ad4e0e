graph [
directed 1
version 2
node [
id 0
label "1"
graphics [
x 100
y -600
z 0
h 1
w 1
d 1
type "rectangle"
width 0.12
fill "#ff0000"
outline "#000000"
     ]
]
node [
id 1
label "2"
graphics [
x 40
y -500
z 0
h 1
w 1
d 1
type "rectangle"
width 0.12
fill "#ff0000"
outline "#000000"
     ]
]
node [
id 2
label "3"
graphics [
x 100
y -500
z 0
h 1
w 1
d 1
type "rectangle"
width 0.12
fill "#ff0000"
outline "#000000"
     ]
]
node [
id 3
label "4"
graphics [
x 180
y -500
z 0
h 1
w 1
d 1
type "rectangle"
width 0.12
fill "#ff0000"
outline "#000000"
     ]
]
node [
id 4
label "5"
graphics [
x 60
y -400
z 0
h 1
w 1
d 1
type "rectangle"
width 0.12
fill "#ff0000"
outline "#000000"
     ]
]
node [
id 5
label "6"
graphics [
x 140
y -400
z 0
h 1
w 1
d 1
type "rectangle"
width 0.12
fill "#ff0000"
outline "#000000"
     ]
]
node [
id 6
label "7"
graphics [
x 220
y -400
z 0
h 1
w 1
d 1
type "rectangle"
width 0.12
fill "#ff0000"
outline "#000000"
     ]
]
node [
id 7
label "8"
graphics [
x 40
y -300
z 0
h 1
w 1
d 1
type "rectangle"
width 0.12
fill "#ff0000"
outline "#000000"
     ]
]
node [
id 8
label "9"
graphics [
x 120
y -300
z 0
h 1
w 1
d 1
type "rectangle"
width 0.12
fill "#ff0000"
outline "#000000"
     ]
]
node [
id 9
label "10"
graphics [
x 200
y -300
z 0
h 1
w 1
d 1
type "rectangle"
width 0.12
fill "#ff0000"
outline "#000000"
     ]
]
node [
id 10
label "11"
graphics [
x 100
y -200
z 0
h 1
w 1
d 1
type "rectangle"
width 0.12
fill "#ff0000"
outline "#000000"
     ]
]
node [
id 11
label "12"
graphics [
x 120
y -100
z 0
h 1
w 1
d 1
type "rectangle"
width 0.12
fill "#ff0000"
outline "#000000"
     ]
]
edge [
source 5
target 9
id 0
label ""
graphics [
type "line"
arrow "last"
width 0.1
Line [
]
]
]
edge [
source 0
target 3
id 1
label ""
graphics [
type "line"
arrow "last"
width 0.1
Line [
]
]
]
edge [
source 8
target 10
id 2
label ""
graphics [
type "line"
arrow "last"
width 0.1
Line [
]
]
]
edge [
source 2
target 5
id 3
label ""
graphics [
type "line"
arrow "last"
width 0.1
Line [
]
]
]
edge [
source 0
target 1
id 4
label ""
graphics [
type "line"
arrow "last"
width 0.1
Line [
]
]
]
edge [
source 4
target 7
id 5
label ""
graphics [
type "line"
arrow "last"
width 0.1
Line [
]
]
]
edge [
source 3
target 6
id 6
label ""
graphics [
type "line"
arrow "last"
width 0.1
Line [
]
]
]
edge [
source 10
target 11
id 7
label ""
graphics [
type "line"
arrow "last"
width 0.1
Line [
]
]
]
edge [
source 1
target 4
id 8
label ""
graphics [
type "line"
arrow "last"
width 0.1
Line [
]
]
]
edge [
source 6
target 9
id 9
label ""
graphics [
type "line"
arrow "last"
width 0.1
Line [
]
]
]
edge [
source 2
target 4
id 10
label ""
graphics [
type "line"
arrow "last"
width 0.1
Line [
]
]
]
edge [
source 7
target 10
id 11
label ""
graphics [
type "line"
arrow "last"
width 0.1
Line [
]
]
]
edge [
source 0
target 2
id 12
label ""
graphics [
type "line"
arrow "last"
width 0.1
Line [
]
]
]
edge [
source 4
target 8
id 13
label ""
graphics [
type "line"
arrow "last"
width 0.1
Line [
]
]
]
edge [
source 9
target 11
id 14
label ""
graphics [
type "line"
arrow "last"
width 0.1
Line [
]
]
]
edge [
source 3
target 5
id 15
label ""
graphics [
type "line"
arrow "last"
width 0.1
Line [
]
]
]
edge [
source 5
target 8
id 16
label ""
graphics [
type "line"
arrow "last"
width 0.1
Line [
]
]
]
]
