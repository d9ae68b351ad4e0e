Creator	"yFiles"
Version	"2.22"
graph
[
	hierarchic	1
	label	""
	directed	1
	node
	[
		id	0
		label	"ground"
		graphics
		[
			x	100.0
			y	400.0
			w	30.0
			h	30.0
			type	"rectangle"
			raisedBorder	0
			fill	"#FFCC00"
			outline	"#000000"
		]
		LabelGraphics
		[
			text	"ground"
			fontSize	12
			fontName	"Dialog"
			model	"null"
		]
	]
	node
	[
		id	1
		label	"a"
		graphics
		[
			x	60.0
			y	300.0
			w	30.0
			h	30.0
			type	"rectangle"
			raisedBorder	0
			fill	"#FFCC00"
			outline	"#000000"
		]
		LabelGraphics
		[
			text	"a"
			fontSize	12
			fontName	"Dialog"
			model	"null"
		]
	]
	node
	[
		id	2
		label	"b"
		graphics
		[
			x	140.0
			y	300.0
			w	30.0
			h	30.0
			type	"rectangle"
			raisedBorder	0
			fill	"#FFCC00"
			outline	"#000000"
		]
		LabelGraphics
		[
			text	"b"
			fontSize	12
			fontName	"Dialog"
			model	"null"
		]
	]
	node
	[
		id	3
		label	"battery"
		graphics
		[
			x	100.0
			y	200.0
			w	30.0
			h	30.0
			type	"rectangle"
			raisedBorder	0
			fill	"#FFCC00"
			outline	"#000000"
		]
		LabelGraphics
		[
			text	"battery"
			fontSize	12
			fontName	"Dialog"
			model	"null"
		]
	]
	edge
	[
		source	0
		target	1
		label	"4.5"
		graphics
		[
			fill	"#000000"
			targetArrow	"standard"
		]
		edgeAnchor
		[
		]
		LabelGraphics
		[
			text	"4.5"
			fontSize	12
			model	"six_pos"
			position	"tail"
		]
	]
	edge
	[
		source	0
		target	1
		label	"inf"
		graphics
		[
			fill	"#000000"
			targetArrow	"standard"
		]
		edgeAnchor
		[
		]
		LabelGraphics
		[
			text	"inf"
			fontSize	12
			model	"six_pos"
			position	"tail"
		]
	]
	edge
	[
		source	0
		target	2
		label	"1.5"
		graphics
		[
			fill	"#000000"
			targetArrow	"standard"
		]
		edgeAnchor
		[
		]
		LabelGraphics
		[
			text	"1.5"
			fontSize	12
			model	"six_pos"
			position	"tail"
		]
	]
	edge
	[
		source	1
		target	2
		label	"0.25"
		graphics
		[
			fill	"#000000"
			targetArrow	"standard"
		]
		edgeAnchor
		[
		]
		LabelGraphics
		[
			text	"0.25"
			fontSize	12
			model	"six_pos"
			position	"tail"
		]
	]
	edge
	[
		source	1
		target	3
		label	"1e-07"
		graphics
		[
			fill	"#000000"
			targetArrow	"standard"
		]
		edgeAnchor
		[
		]
		LabelGraphics
		[
			text	"1e-07"
			fontSize	12
			model	"six_pos"
			position	"tail"
		]
	]
	edge
	[
		source	2
		target	3
		label	"3"
		graphics
		[
			fill	"#000000"
			targetArrow	"standard"
		]
		edgeAnchor
		[
		]
		LabelGraphics
		[
			text	"3"
			fontSize	12
			model	"six_pos"
			position	"tail"
		]
	]
	edge
	[
		source	2
		target	3
		label	"inf"
		graphics
		[
			fill	"#000000"
			targetArrow	"standard"
		]
		edgeAnchor
		[
		]
		LabelGraphics
		[
			text	"inf"
			fontSize	12
			model	"six_pos"
			position	"tail"
		]
	]
]
