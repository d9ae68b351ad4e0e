Creator	"yFiles"
Version	"2.22"
graph
[
	hierarchic	1
	label	""
	directed	1
	node
	[
		id	0
		label	"go"
		graphics
		[
			x	100.0
			y	500.0
			w	30.0
			h	30.0
			type	"rectangle"
			raisedBorder	0
			fill	"#FFCC00"
			outline	"#000000"
		]
		LabelGraphics
		[
			text	"go"
			fontSize	12
			fontName	"Dialog"
			model	"null"
		]
	]
	node
	[
		id	1
		label	"plan"
		graphics
		[
			x	60.0
			y	420.0
			w	30.0
			h	30.0
			type	"rectangle"
			raisedBorder	0
			fill	"#FFCC00"
			outline	"#000000"
		]
		LabelGraphics
		[
			text	"plan"
			fontSize	12
			fontName	"Dialog"
			model	"null"
		]
	]
	node
	[
		id	2
		label	"site"
		graphics
		[
			x	160.0
			y	420.0
			w	30.0
			h	30.0
			type	"rectangle"
			raisedBorder	0
			fill	"#FFCC00"
			outline	"#000000"
		]
		LabelGraphics
		[
			text	"site"
			fontSize	12
			fontName	"Dialog"
			model	"null"
		]
	]
	node
	[
		id	3
		label	"base"
		graphics
		[
			x	120.0
			y	340.0
			w	30.0
			h	30.0
			type	"rectangle"
			raisedBorder	0
			fill	"#FFCC00"
			outline	"#000000"
		]
		LabelGraphics
		[
			text	"base"
			fontSize	12
			fontName	"Dialog"
			model	"null"
		]
	]
	node
	[
		id	4
		label	"roof"
		graphics
		[
			x	120.0
			y	260.0
			w	30.0
			h	30.0
			type	"rectangle"
			raisedBorder	0
			fill	"#FFCC00"
			outline	"#000000"
		]
		LabelGraphics
		[
			text	"roof"
			fontSize	12
			fontName	"Dialog"
			model	"null"
		]
	]
	node
	[
		id	5
		label	"panes"
		graphics
		[
			x	60.0
			y	180.0
			w	30.0
			h	30.0
			type	"rectangle"
			raisedBorder	0
			fill	"#FFCC00"
			outline	"#000000"
		]
		LabelGraphics
		[
			text	"panes"
			fontSize	12
			fontName	"Dialog"
			model	"null"
		]
	]
	node
	[
		id	6
		label	"light"
		graphics
		[
			x	160.0
			y	180.0
			w	30.0
			h	30.0
			type	"rectangle"
			raisedBorder	0
			fill	"#FFCC00"
			outline	"#000000"
		]
		LabelGraphics
		[
			text	"light"
			fontSize	12
			fontName	"Dialog"
			model	"null"
		]
	]
	node
	[
		id	7
		label	"in"
		graphics
		[
			x	100.0
			y	100.0
			w	30.0
			h	30.0
			type	"rectangle"
			raisedBorder	0
			fill	"#FFCC00"
			outline	"#000000"
		]
		LabelGraphics
		[
			text	"in"
			fontSize	12
			fontName	"Dialog"
			model	"null"
		]
	]
	edge
	[
		source	0
		target	1
		label	"2"
		graphics
		[
			fill	"#000000"
			targetArrow	"standard"
		]
		edgeAnchor
		[
		]
		LabelGraphics
		[
			text	"2"
			fontSize	12
			model	"six_pos"
			position	"tail"
		]
	]
	edge
	[
		source	0
		target	2
		label	"1"
		graphics
		[
			fill	"#000000"
			targetArrow	"standard"
		]
		edgeAnchor
		[
		]
		LabelGraphics
		[
			text	"1"
			fontSize	12
			model	"six_pos"
			position	"tail"
		]
	]
	edge
	[
		source	1
		target	5
		label	"6"
		graphics
		[
			fill	"#000000"
			targetArrow	"standard"
		]
		edgeAnchor
		[
		]
		LabelGraphics
		[
			text	"6"
			fontSize	12
			model	"six_pos"
			position	"tail"
		]
	]
	edge
	[
		source	1
		target	3
		label	"1"
		graphics
		[
			fill	"#000000"
			targetArrow	"standard"
		]
		edgeAnchor
		[
		]
		LabelGraphics
		[
			text	"1"
			fontSize	12
			model	"six_pos"
			position	"tail"
		]
	]
	edge
	[
		source	2
		target	3
		label	"3"
		graphics
		[
			fill	"#000000"
			targetArrow	"standard"
		]
		edgeAnchor
		[
		]
		LabelGraphics
		[
			text	"3"
			fontSize	12
			model	"six_pos"
			position	"tail"
		]
	]
	edge
	[
		source	3
		target	4
		label	"4"
		graphics
		[
			fill	"#000000"
			targetArrow	"standard"
		]
		edgeAnchor
		[
		]
		LabelGraphics
		[
			text	"4"
			fontSize	12
			model	"six_pos"
			position	"tail"
		]
	]
	edge
	[
		source	4
		target	5
		label	"1"
		graphics
		[
			fill	"#000000"
			targetArrow	"standard"
		]
		edgeAnchor
		[
		]
		LabelGraphics
		[
			text	"1"
			fontSize	12
			model	"six_pos"
			position	"tail"
		]
	]
	edge
	[
		source	4
		target	6
		label	"2"
		graphics
		[
			fill	"#000000"
			targetArrow	"standard"
		]
		edgeAnchor
		[
		]
		LabelGraphics
		[
			text	"2"
			fontSize	12
			model	"six_pos"
			position	"tail"
		]
	]
	edge
	[
		source	5
		target	7
		label	"2"
		graphics
		[
			fill	"#000000"
			targetArrow	"standard"
		]
		edgeAnchor
		[
		]
		LabelGraphics
		[
			text	"2"
			fontSize	12
			model	"six_pos"
			position	"tail"
		]
	]
	edge
	[
		source	6
		target	7
		label	"2"
		graphics
		[
			fill	"#000000"
			targetArrow	"standard"
		]
		edgeAnchor
		[
		]
		LabelGraphics
		[
			text	"2"
			fontSize	12
			model	"six_pos"
			position	"tail"
		]
	]
]
