Creator	"yFiles"
Version	"2.22"
graph
[
	hierarchic	1
	label	""
	directed	1
	node
	[
		id	0
		label	"a &quot;quoted&quot; name"
		graphics
		[
			x	100.0
			y	400.0
			w	30.0
			h	30.0
			type	"rectangle"
			raisedBorder	0
			fill	"#FFCC00"
			outline	"#000000"
		]
		LabelGraphics
		[
			text	"a &quot;quoted&quot; name"
			fontSize	12
			fontName	"Dialog"
			model	"null"
		]
	]
	node
	[
		id	1
		label	"Gr&#246;&#223;e &amp; Ma&#223;"
		graphics
		[
			x	60.0
			y	300.0
			w	30.0
			h	30.0
			type	"rectangle"
			raisedBorder	0
			fill	"#FFCC00"
			outline	"#000000"
		]
		LabelGraphics
		[
			text	"Gr&#246;&#223;e &amp; Ma&#223;"
			fontSize	12
			fontName	"Dialog"
			model	"null"
		]
	]
	node
	[
		id	2
		label	"list [of] 3"
		graphics
		[
			x	140.0
			y	300.0
			w	30.0
			h	30.0
			type	"rectangle"
			raisedBorder	0
			fill	"#FFCC00"
			outline	"#000000"
		]
		LabelGraphics
		[
			text	"list [of] 3"
			fontSize	12
			fontName	"Dialog"
			model	"null"
		]
	]
	node
	[
		id	3
		label	"semi; colon # 5"
		graphics
		[
			x	100.0
			y	200.0
			w	30.0
			h	30.0
			type	"rectangle"
			raisedBorder	0
			fill	"#FFCC00"
			outline	"#000000"
		]
		LabelGraphics
		[
			text	"semi; colon # 5"
			fontSize	12
			fontName	"Dialog"
			model	"null"
		]
	]
	node
	[
		id	4
		label	"yes / no (?)"
		graphics
		[
			x	100.0
			y	100.0
			w	30.0
			h	30.0
			type	"rectangle"
			raisedBorder	0
			fill	"#FFCC00"
			outline	"#000000"
		]
		LabelGraphics
		[
			text	"yes / no (?)"
			fontSize	12
			fontName	"Dialog"
			model	"null"
		]
	]
	edge
	[
		source	0
		target	1
		label	"1"
		graphics
		[
			fill	"#000000"
			targetArrow	"standard"
		]
		edgeAnchor
		[
		]
		LabelGraphics
		[
			text	"1"
			fontSize	12
			model	"six_pos"
			position	"tail"
		]
	]
	edge
	[
		source	0
		target	2
		label	"1"
		graphics
		[
			fill	"#000000"
			targetArrow	"standard"
		]
		edgeAnchor
		[
		]
		LabelGraphics
		[
			text	"1"
			fontSize	12
			model	"six_pos"
			position	"tail"
		]
	]
	edge
	[
		source	1
		target	3
		label	"1"
		graphics
		[
			fill	"#000000"
			targetArrow	"standard"
		]
		edgeAnchor
		[
		]
		LabelGraphics
		[
			text	"1"
			fontSize	12
			model	"six_pos"
			position	"tail"
		]
	]
	edge
	[
		source	2
		target	3
		label	"1"
		graphics
		[
			fill	"#000000"
			targetArrow	"standard"
		]
		edgeAnchor
		[
		]
		LabelGraphics
		[
			text	"1"
			fontSize	12
			model	"six_pos"
			position	"tail"
		]
	]
	edge
	[
		source	3
		target	4
		label	"1"
		graphics
		[
			fill	"#000000"
			targetArrow	"standard"
		]
		edgeAnchor
		[
		]
		LabelGraphics
		[
			text	"1"
			fontSize	12
			model	"six_pos"
			position	"tail"
		]
	]
]
