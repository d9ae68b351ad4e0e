Creator	"yFiles"
Version	"2.17"
graph
[
	hierarchic	1
	label	""
	directed	1
	node
	[
		id	0
		label	"A"
		graphics
		[
			x	12.5
			y	-30.0
			type	"rectangle"
			fill	"#FFCC00"
		]
		LabelGraphics
		[
			text	"A"
			fontSize	12
			model	"null"
		]
	]
	node
	[
		id	1
		label	"group
of two"
		isGroup	1
	]
	node
	[
		id	2
		label	"B (1)"
		gid	1
	]
	edge
	[
		source	0
		target	2
		graphics
		[
			fill	"#000000"
			targetArrow	"standard"
			Line
			[
				point
				[
					x	12.5
					y	-30.0
				]
			]
		]
	]
]
