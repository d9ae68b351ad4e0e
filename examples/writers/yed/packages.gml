Creator	"yFiles"
Version	"2.22"
graph
[
	hierarchic	1
	label	""
	directed	1
	node
	[
		id	0
		label	"libc"
		graphics
		[
			x	60.0
			y	500.0
			w	30.0
			h	30.0
			type	"rectangle"
			raisedBorder	0
			fill	"#FFCC00"
			outline	"#000000"
		]
		LabelGraphics
		[
			text	"libc"
			fontSize	12
			fontName	"Dialog"
			model	"null"
		]
	]
	node
	[
		id	1
		label	"zlib"
		graphics
		[
			x	200.0
			y	500.0
			w	30.0
			h	30.0
			type	"rectangle"
			raisedBorder	0
			fill	"#FFCC00"
			outline	"#000000"
		]
		LabelGraphics
		[
			text	"zlib"
			fontSize	12
			fontName	"Dialog"
			model	"null"
		]
	]
	node
	[
		id	2
		label	"ssl"
		graphics
		[
			x	60.0
			y	400.0
			w	30.0
			h	30.0
			type	"rectangle"
			raisedBorder	0
			fill	"#FFCC00"
			outline	"#000000"
		]
		LabelGraphics
		[
			text	"ssl"
			fontSize	12
			fontName	"Dialog"
			model	"null"
		]
	]
	node
	[
		id	3
		label	"png"
		graphics
		[
			x	200.0
			y	400.0
			w	30.0
			h	30.0
			type	"rectangle"
			raisedBorder	0
			fill	"#FFCC00"
			outline	"#000000"
		]
		LabelGraphics
		[
			text	"png"
			fontSize	12
			fontName	"Dialog"
			model	"null"
		]
	]
	node
	[
		id	4
		label	"http"
		graphics
		[
			x	60.0
			y	300.0
			w	30.0
			h	30.0
			type	"rectangle"
			raisedBorder	0
			fill	"#FFCC00"
			outline	"#000000"
		]
		LabelGraphics
		[
			text	"http"
			fontSize	12
			fontName	"Dialog"
			model	"null"
		]
	]
	node
	[
		id	5
		label	"image"
		graphics
		[
			x	200.0
			y	300.0
			w	30.0
			h	30.0
			type	"rectangle"
			raisedBorder	0
			fill	"#FFCC00"
			outline	"#000000"
		]
		LabelGraphics
		[
			text	"image"
			fontSize	12
			fontName	"Dialog"
			model	"null"
		]
	]
	node
	[
		id	6
		label	"browser"
		graphics
		[
			x	130.0
			y	200.0
			w	30.0
			h	30.0
			type	"rectangle"
			raisedBorder	0
			fill	"#FFCC00"
			outline	"#000000"
		]
		LabelGraphics
		[
			text	"browser"
			fontSize	12
			fontName	"Dialog"
			model	"null"
		]
	]
	node
	[
		id	7
		label	"viewer"
		graphics
		[
			x	260.0
			y	200.0
			w	30.0
			h	30.0
			type	"rectangle"
			raisedBorder	0
			fill	"#FFCC00"
			outline	"#000000"
		]
		LabelGraphics
		[
			text	"viewer"
			fontSize	12
			fontName	"Dialog"
			model	"null"
		]
	]
	edge
	[
		source	0
		target	2
		label	"1"
		graphics
		[
			fill	"#000000"
			targetArrow	"standard"
		]
		edgeAnchor
		[
		]
		LabelGraphics
		[
			text	"1"
			fontSize	12
			model	"six_pos"
			position	"tail"
		]
	]
	edge
	[
		source	0
		target	3
		label	"1"
		graphics
		[
			fill	"#000000"
			targetArrow	"standard"
		]
		edgeAnchor
		[
		]
		LabelGraphics
		[
			text	"1"
			fontSize	12
			model	"six_pos"
			position	"tail"
		]
	]
	edge
	[
		source	1
		target	3
		label	"1"
		graphics
		[
			fill	"#000000"
			targetArrow	"standard"
		]
		edgeAnchor
		[
		]
		LabelGraphics
		[
			text	"1"
			fontSize	12
			model	"six_pos"
			position	"tail"
		]
	]
	edge
	[
		source	2
		target	4
		label	"1"
		graphics
		[
			fill	"#000000"
			targetArrow	"standard"
		]
		edgeAnchor
		[
		]
		LabelGraphics
		[
			text	"1"
			fontSize	12
			model	"six_pos"
			position	"tail"
		]
	]
	edge
	[
		source	3
		target	5
		label	"1"
		graphics
		[
			fill	"#000000"
			targetArrow	"standard"
		]
		edgeAnchor
		[
		]
		LabelGraphics
		[
			text	"1"
			fontSize	12
			model	"six_pos"
			position	"tail"
		]
	]
	edge
	[
		source	4
		target	6
		label	"1"
		graphics
		[
			fill	"#000000"
			targetArrow	"standard"
		]
		edgeAnchor
		[
		]
		LabelGraphics
		[
			text	"1"
			fontSize	12
			model	"six_pos"
			position	"tail"
		]
	]
	edge
	[
		source	5
		target	6
		label	"1"
		graphics
		[
			fill	"#000000"
			targetArrow	"standard"
		]
		edgeAnchor
		[
		]
		LabelGraphics
		[
			text	"1"
			fontSize	12
			model	"six_pos"
			position	"tail"
		]
	]
	edge
	[
		source	5
		target	7
		label	"1"
		graphics
		[
			fill	"#000000"
			targetArrow	"standard"
		]
		edgeAnchor
		[
		]
		LabelGraphics
		[
			text	"1"
			fontSize	12
			model	"six_pos"
			position	"tail"
		]
	]
]
