Creator "JGraphT GML Exporter"
Version 1
graph
[
	label ""
	directed 1
	node
	[
		id 0
		label "libc"
	]
	node
	[
		id 1
		label "zlib"
	]
	node
	[
		id 2
		label "ssl"
	]
	node
	[
		id 3
		label "png"
	]
	node
	[
		id 4
		label "http"
	]
	node
	[
		id 5
		label "image"
	]
	node
	[
		id 6
		label "browser"
	]
	node
	[
		id 7
		label "viewer"
	]
	edge
	[
		source 0
		target 2
		weight 1.0
	]
	edge
	[
		source 0
		target 3
		weight 1.0
	]
	edge
	[
		source 1
		target 3
		weight 1.0
	]
	edge
	[
		source 2
		target 4
		weight 1.0
	]
	edge
	[
		source 3
		target 5
		weight 1.0
	]
	edge
	[
		source 4
		target 6
		weight 1.0
	]
	edge
	[
		source 5
		target 6
		weight 1.0
	]
	edge
	[
		source 5
		target 7
		weight 1.0
	]
]
