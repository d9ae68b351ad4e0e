Creator	"yFiles"
Version	"2.22"
graph
[
	hierarchic	1
	label	""
	directed	1
	node
	[
		id	0
		label	"1"
		graphics
		[
			x	100.0
			y	600.0
			w	30.0
			h	30.0
			type	"rectangle"
			raisedBorder	0
			fill	"#FFCC00"
			outline	"#000000"
		]
		LabelGraphics
		[
			text	"1"
			fontSize	12
			fontName	"Dialog"
			model	"null"
		]
	]
	node
	[
		id	1
		label	"2"
		graphics
		[
			x	40.0
			y	500.0
			w	30.0
			h	30.0
			type	"rectangle"
			raisedBorder	0
			fill	"#FFCC00"
			outline	"#000000"
		]
		LabelGraphics
		[
			text	"2"
			fontSize	12
			fontName	"Dialog"
			model	"null"
		]
	]
	node
	[
		id	2
		label	"3"
		graphics
		[
			x	100.0
			y	500.0
			w	30.0
			h	30.0
			type	"rectangle"
			raisedBorder	0
			fill	"#FFCC00"
			outline	"#000000"
		]
		LabelGraphics
		[
			text	"3"
			fontSize	12
			fontName	"Dialog"
			model	"null"
		]
	]
	node
	[
		id	3
		label	"4"
		graphics
		[
			x	180.0
			y	500.0
			w	30.0
			h	30.0
			type	"rectangle"
			raisedBorder	0
			fill	"#FFCC00"
			outline	"#000000"
		]
		LabelGraphics
		[
			text	"4"
			fontSize	12
			fontName	"Dialog"
			model	"null"
		]
	]
	node
	[
		id	4
		label	"5"
		graphics
		[
			x	60.0
			y	400.0
			w	30.0
			h	30.0
			type	"rectangle"
			raisedBorder	0
			fill	"#FFCC00"
			outline	"#000000"
		]
		LabelGraphics
		[
			text	"5"
			fontSize	12
			fontName	"Dialog"
			model	"null"
		]
	]
	node
	[
		id	5
		label	"6"
		graphics
		[
			x	140.0
			y	400.0
			w	30.0
			h	30.0
			type	"rectangle"
			raisedBorder	0
			fill	"#FFCC00"
			outline	"#000000"
		]
		LabelGraphics
		[
			text	"6"
			fontSize	12
			fontName	"Dialog"
			model	"null"
		]
	]
	node
	[
		id	6
		label	"7"
		graphics
		[
			x	220.0
			y	400.0
			w	30.0
			h	30.0
			type	"rectangle"
			raisedBorder	0
			fill	"#FFCC00"
			outline	"#000000"
		]
		LabelGraphics
		[
			text	"7"
			fontSize	12
			fontName	"Dialog"
			model	"null"
		]
	]
	node
	[
		id	7
		label	"8"
		graphics
		[
			x	40.0
			y	300.0
			w	30.0
			h	30.0
			type	"rectangle"
			raisedBorder	0
			fill	"#FFCC00"
			outline	"#000000"
		]
		LabelGraphics
		[
			text	"8"
			fontSize	12
			fontName	"Dialog"
			model	"null"
		]
	]
	node
	[
		id	8
		label	"9"
		graphics
		[
			x	120.0
			y	300.0
			w	30.0
			h	30.0
			type	"rectangle"
			raisedBorder	0
			fill	"#FFCC00"
			outline	"#000000"
		]
		LabelGraphics
		[
			text	"9"
			fontSize	12
			fontName	"Dialog"
			model	"null"
		]
	]
	node
	[
		id	9
		label	"10"
		graphics
		[
			x	200.0
			y	300.0
			w	30.0
			h	30.0
			type	"rectangle"
			raisedBorder	0
			fill	"#FFCC00"
			outline	"#000000"
		]
		LabelGraphics
		[
			text	"10"
			fontSize	12
			fontName	"Dialog"
			model	"null"
		]
	]
	node
	[
		id	10
		label	"11"
		graphics
		[
			x	100.0
			y	200.0
			w	30.0
			h	30.0
			type	"rectangle"
			raisedBorder	0
			fill	"#FFCC00"
			outline	"#000000"
		]
		LabelGraphics
		[
			text	"11"
			fontSize	12
			fontName	"Dialog"
			model	"null"
		]
	]
	node
	[
		id	11
		label	"12"
		graphics
		[
			x	120.0
			y	100.0
			w	30.0
			h	30.0
			type	"rectangle"
			raisedBorder	0
			fill	"#FFCC00"
			outline	"#000000"
		]
		LabelGraphics
		[
			text	"12"
			fontSize	12
			fontName	"Dialog"
			model	"null"
		]
	]
	edge
	[
		source	5
		target	9
		label	"1"
		graphics
		[
			fill	"#000000"
			targetArrow	"standard"
		]
		edgeAnchor
		[
		]
		LabelGraphics
		[
			text	"1"
			fontSize	12
			model	"six_pos"
			position	"tail"
		]
	]
	edge
	[
		source	0
		target	3
		label	"1"
		graphics
		[
			fill	"#000000"
			targetArrow	"standard"
		]
		edgeAnchor
		[
		]
		LabelGraphics
		[
			text	"1"
			fontSize	12
			model	"six_pos"
			position	"tail"
		]
	]
	edge
	[
		source	8
		target	10
		label	"1"
		graphics
		[
			fill	"#000000"
			targetArrow	"standard"
		]
		edgeAnchor
		[
		]
		LabelGraphics
		[
			text	"1"
			fontSize	12
			model	"six_pos"
			position	"tail"
		]
	]
	edge
	[
		source	2
		target	5
		label	"1"
		graphics
		[
			fill	"#000000"
			targetArrow	"standard"
		]
		edgeAnchor
		[
		]
		LabelGraphics
		[
			text	"1"
			fontSize	12
			model	"six_pos"
			position	"tail"
		]
	]
	edge
	[
		source	0
		target	1
		label	"1"
		graphics
		[
			fill	"#000000"
			targetArrow	"standard"
		]
		edgeAnchor
		[
		]
		LabelGraphics
		[
			text	"1"
			fontSize	12
			model	"six_pos"
			position	"tail"
		]
	]
	edge
	[
		source	4
		target	7
		label	"1"
		graphics
		[
			fill	"#000000"
			targetArrow	"standard"
		]
		edgeAnchor
		[
		]
		LabelGraphics
		[
			text	"1"
			fontSize	12
			model	"six_pos"
			position	"tail"
		]
	]
	edge
	[
		source	3
		target	6
		label	"1"
		graphics
		[
			fill	"#000000"
			targetArrow	"standard"
		]
		edgeAnchor
		[
		]
		LabelGraphics
		[
			text	"1"
			fontSize	12
			model	"six_pos"
			position	"tail"
		]
	]
	edge
	[
		source	10
		target	11
		label	"1"
		graphics
		[
			fill	"#000000"
			targetArrow	"standard"
		]
		edgeAnchor
		[
		]
		LabelGraphics
		[
			text	"1"
			fontSize	12
			model	"six_pos"
			position	"tail"
		]
	]
	edge
	[
		source	1
		target	4
		label	"1"
		graphics
		[
			fill	"#000000"
			targetArrow	"standard"
		]
		edgeAnchor
		[
		]
		LabelGraphics
		[
			text	"1"
			fontSize	12
			model	"six_pos"
			position	"tail"
		]
	]
	edge
	[
		source	6
		target	9
		label	"1"
		graphics
		[
			fill	"#000000"
			targetArrow	"standard"
		]
		edgeAnchor
		[
		]
		LabelGraphics
		[
			text	"1"
			fontSize	12
			model	"six_pos"
			position	"tail"
		]
	]
	edge
	[
		source	2
		target	4
		label	"1"
		graphics
		[
			fill	"#000000"
			targetArrow	"standard"
		]
		edgeAnchor
		[
		]
		LabelGraphics
		[
			text	"1"
			fontSize	12
			model	"six_pos"
			position	"tail"
		]
	]
	edge
	[
		source	7
		target	10
		label	"1"
		graphics
		[
			fill	"#000000"
			targetArrow	"standard"
		]
		edgeAnchor
		[
		]
		LabelGraphics
		[
			text	"1"
			fontSize	12
			model	"six_pos"
			position	"tail"
		]
	]
	edge
	[
		source	0
		target	2
		label	"1"
		graphics
		[
			fill	"#000000"
			targetArrow	"standard"
		]
		edgeAnchor
		[
		]
		LabelGraphics
		[
			text	"1"
			fontSize	12
			model	"six_pos"
			position	"tail"
		]
	]
	edge
	[
		source	4
		target	8
		label	"1"
		graphics
		[
			fill	"#000000"
			targetArrow	"standard"
		]
		edgeAnchor
		[
		]
		LabelGraphics
		[
			text	"1"
			fontSize	12
			model	"six_pos"
			position	"tail"
		]
	]
	edge
	[
		source	9
		target	11
		label	"1"
		graphics
		[
			fill	"#000000"
			targetArrow	"standard"
		]
		edgeAnchor
		[
		]
		LabelGraphics
		[
			text	"1"
			fontSize	12
			model	"six_pos"
			position	"tail"
		]
	]
	edge
	[
		source	3
		target	5
		label	"1"
		graphics
		[
			fill	"#000000"
			targetArrow	"standard"
		]
		edgeAnchor
		[
		]
		LabelGraphics
		[
			text	"1"
			fontSize	12
			model	"six_pos"
			position	"tail"
		]
	]
	edge
	[
		source	5
		target	8
		label	"1"
		graphics
		[
			fill	"#000000"
			targetArrow	"standard"
		]
		edgeAnchor
		[
		]
		LabelGraphics
		[
			text	"1"
			fontSize	12
			model	"six_pos"
			position	"tail"
		]
	]
]
